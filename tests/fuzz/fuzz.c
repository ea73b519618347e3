/* The calls of guide.h under libFuzzer, which hands in the bytes and the choices; ../guard/lending.h says what is looked at. The library is the one that C links,
 * not compiled for fuzzing, so coverage is made here: at the start of every block of its code a breakpoint is set, which tells when the block is
 * first reached, is counted for libFuzzer, and is taken away. So an input is kept when it reaches a block that none before it has reached; how often a
 * block is run is not seen. run.sh puts the library's code into one section. The blocks are found in Arm code.
 */
#include "../guard/lending.h"
#include <signal.h>
#include <ucontext.h>

#ifndef __aarch64__
#error "the blocks are found in Arm code alone"
#endif

/* ---- the input: one byte of what is done, the bytes of a section or of some, and at its end the choices, which are gone through again and again */
enum { CHOICES = 32, SHELF_CALLS = 24 };

static const uint8_t *input, *choices;
static size_t input_left, choice_count, next_choice;

static uint32_t any(uint32_t below) {
    uint32_t value = 0;
    for (uint32_t most = below - 1; most; most >>= 8)
        value = value << 8 | choices[next_choice++ % choice_count];
    return value % below;
}

/* The next bytes of the input as a section, mostly sealed. */
static size_t damaged(uint8_t *section) {
    size_t n = 14 + any(64);
    if (n > input_left)
        n = input_left;
    memcpy(section, input, n);
    input += n;
    input_left -= n;
    if (any(4))
        seal(section, n);
    return n;
}

/* ---- the blocks of the library's code */
extern uint32_t __start_guide_text[], __stop_guide_text[];

enum { MOST_BLOCKS = 1 << 14, BREAKPOINT = (int)0xD4200000 };

/* volatile, as libFuzzer reads it behind the compiler's back */
__attribute__((section("__libfuzzer_extra_counters"))) static volatile uint8_t reached[MOST_BLOCKS];
static struct {
    uint32_t *at, code;
} block[MOST_BLOCKS];
static size_t blocks, blocks_reached;

static void write_code(uint32_t *at, uint32_t code) {
    *at = code;
    __builtin___clear_cache((char *)at, (char *)(at + 1));
}

/* The blocks are sorted by where they begin. */
static size_t block_at(const uint32_t *at) {
    size_t low = 0, high = blocks;
    while (low < high) {
        size_t middle = (low + high) / 2;
        if (block[middle].at < at)
            low = middle + 1;
        else
            high = middle;
    }
    return low;
}

static void on_breakpoint(int signal, siginfo_t *info, void *context) {
    uint32_t *at = (uint32_t *)((ucontext_t *)context)->uc_mcontext.pc;
    size_t i = block_at(at);
    (void)info;
    if (i == blocks || block[i].at != at) {
        fprintf(stderr, "signal %d at %p, where no breakpoint was set\n", signal, (void *)at);
        abort();
    }
    reached[i] = 1;
    blocks_reached++;
    write_code(at, block[i].code);
}

/* How far a branch goes, in instructions; 0 where it is none. `falls` tells whether the next instruction may follow it. */
static int32_t branch(uint32_t code, int *falls) {
    *falls = 1;
    if ((code & 0xFF000010) == 0x54000000 || (code & 0x7E000000) == 0x34000000) /* b.cond; cbz, cbnz */
        return (int32_t)(code << 8) >> 13;
    if ((code & 0x7E000000) == 0x36000000) /* tbz, tbnz */
        return (int32_t)(code << 13) >> 18;
    *falls = 0;
    if ((code & 0xFC000000) == 0x14000000) /* b */
        return (int32_t)(code << 6) >> 6;
    return 0;
}

static void find_blocks(void) {
    size_t n = __stop_guide_text - __start_guide_text;
    uint8_t *begins = calloc(n + 1, 1);
    for (size_t i = 0; i < n; i++) {
        int falls;
        int32_t far = branch(__start_guide_text[i], &falls);
        /* A branch out of the library goes to a C function. */
        if (far && i + far < n)
            begins[i + far] = 1;
        if (far && falls)
            begins[i + 1] = 1;
    }
    for (size_t i = 0; i < n && blocks < MOST_BLOCKS; i++)
        if (begins[i]) {
            block[blocks].at = &__start_guide_text[i];
            block[blocks++].code = __start_guide_text[i];
        }
    free(begins);
}

static void set_breakpoints(void) {
    uintptr_t page = sysconf(_SC_PAGESIZE), first = (uintptr_t)__start_guide_text & -page, end = ((uintptr_t)__stop_guide_text + page - 1) & -page;
    struct sigaction action = {.sa_sigaction = on_breakpoint, .sa_flags = SA_SIGINFO};
    if (sigaction(SIGTRAP, &action, NULL) || mprotect((void *)first, end - first, PROT_READ | PROT_WRITE | PROT_EXEC)) {
        perror("breakpoints");
        exit(1);
    }
    for (size_t i = 0; i < blocks; i++)
        write_code(block[i].at, BREAKPOINT);
}

static void tell(void) {
    printf("%zu of %zu blocks of the library reached, %lu calls, of which %lu were done\n", blocks_reached, blocks, calls, done);
}

/* ---- what libFuzzer calls */
int LLVMFuzzerInitialize(int *argc, char ***argv) {
    (void)argc;
    (void)argv;
    prepare();
    find_blocks();
    set_breakpoints();
    atexit(tell);
    return 0;
}

int LLVMFuzzerTestOneInput(const uint8_t *data, size_t size) {
    enum { ASK, ASK_ALONE, WRITE_AGAIN, SHELF, SEALED };
    if (size < 2)
        return 0;
    choice_count = size / 2 < CHOICES ? size / 2 : CHOICES;
    next_choice = 0;
    choices = data + size - choice_count;
    input = data + 1;
    input_left = size - 1 - choice_count;
    if ((data[0] & 3) == SHELF) {
        shelf_calls(SHELF_CALLS);
        return 0;
    }
    size_t n = input_left < GUIDE_LONGEST ? input_left : GUIDE_LONGEST;
    uint8_t *s = lent(section_room, n);
    memcpy(s, input, n);
    if (data[0] & SEALED)
        seal(s, n);
    switch (data[0] & 3) {
    case ASK:
        ask(s, n);
        break;
    case ASK_ALONE:
        ask_alone(s, n);
        break;
    default:
        write_again(s, n);
    }
    return 0;
}
