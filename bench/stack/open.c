// Opening a watch in the last record; the others are open, and all their places are taken.
#include "held.h"
#include "painted.h"

uint8_t stack_open(Held *held, size_t n, const uint8_t *area, size_t size, size_t pid, size_t quota);

static uint8_t refusal;

static void call(void) { refusal = stack_open(&held, sizeof held, area, sizeof area, LAST, QUOTA); }

int main(void) {
    fill();
    free_from(&held, 0);
    held.watch[LAST] = (Watch){0};
    expected = held;
    expected.watch[LAST] = fresh_watch(LAST, 0xCB);
    long taken = stack_of(call);
    painted("open", "the last record", taken, !refusal && as_expected());
    tell("open");
    return failed;
}
