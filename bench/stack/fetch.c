// Fetching the section in the last place of a full shelf.
#include "held.h"
#include "painted.h"

typedef struct {
    size_t start, length;
} Span;

Span stack_fetch(Held *held, size_t n, const uint8_t *area, size_t size, size_t pid, size_t number);

static Span kept;

static void call(void) { kept = stack_fetch(&held, sizeof held, area, sizeof area, LAST, QUOTA - 1); }

int main(void) {
    fill();
    expected = held;
    long taken = stack_of(call);
    painted("fetch", "the last place", taken, kept.start == (PLACES - 1) * PLACE && kept.length == PLACE && as_expected());
    tell("fetch");
    return failed;
}
