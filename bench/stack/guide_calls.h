// What the programs share that paint calls of guide.h: the section that is asked about, and what a call answers and tells.
#include <guide.h>

#include "kinds.h"
#include "painted.h"

static Section asked;
static uint32_t refusal;

// CALL(call, ..) makes a call about that section, with these arguments behind its bytes, ready to be painted.
#define CALL(call, ...) \
    static void run_##call(void) { refusal = call(asked.bytes, asked.n, __VA_ARGS__); }

// Clears what the program's calls tell and store, so that no answer is taken for one of the call before.
static void blank(void);

// Paints it; `good` says afterwards whether it answered as it should.
#define PAINT(call, good)                        \
    do {                                         \
        blank();                                 \
        long taken = stack_of(run_##call);       \
        painted(#call, asked.name, taken, good); \
    } while (0)
