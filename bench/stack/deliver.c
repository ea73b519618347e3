// Delivering to a shelf that is given by value.
#include "held.h"

#include "delivering.h"

uint8_t stack_deliver(Held *held, size_t n, uint8_t *area, size_t size, size_t pid, const uint8_t *section, size_t m);

static void call(void) { refusal = stack_deliver(&held, sizeof held, area, sizeof area, LAST, delivered.bytes, delivered.n); }

int main(void) {
    deliver_all("deliver", call);
    return failed;
}
