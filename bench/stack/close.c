// Closing the last watch of a full shelf.
#include "held.h"
#include "painted.h"

uint8_t stack_close(Held *held, size_t n, const uint8_t *area, size_t size, size_t pid);

static uint8_t refusal;

static void call(void) { refusal = stack_close(&held, sizeof held, area, sizeof area, LAST); }

int main(void) {
    fill();
    expected = held;
    free_from(&expected, 0);
    expected.watch[LAST] = (Watch){0};
    long taken = stack_of(call);
    painted("close", "the last record", taken, !refusal && as_expected());
    tell("close");
    return failed;
}
