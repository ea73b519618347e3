// The status of the last watch of a full shelf.
#include "held.h"
#include "painted.h"

size_t stack_status(Held *held, size_t n, const uint8_t *area, size_t size, size_t pid);

static size_t complete;

static void call(void) { complete = stack_status(&held, sizeof held, area, sizeof area, LAST); }

int main(void) {
    fill();
    expected = held;
    long taken = stack_of(call);
    painted("status", "the last record", taken, complete == QUOTA && as_expected());
    tell("status");
    return failed;
}
