// The checksum of the library against a byte table in C: time per call, and the stack that a call takes.
// Both sides take the same bytes in the same run, and their registers are compared. A round is short, since on a busy machine a long one is
// always interrupted.
#define _GNU_SOURCE
#include <stdint.h>
#include <stdio.h>
#include <stdlib.h>
#include <string.h>

#include "clock.h"
#include "stack.h"

uint32_t bench_register(const uint8_t *s, size_t n);

typedef uint32_t (*Register)(const uint8_t *s, size_t n);

enum { ROUNDS = 199, LONGEST = 4096, STARTS = 64, BYTES_A_ROUND = 1 << 17 };

static uint32_t table[256];
static uint8_t bytes[LONGEST + STARTS];

static void fill(void) {
    for (uint32_t k = 0; k < 256; k++) {
        uint32_t r = k << 24;
        for (int i = 0; i < 8; i++)
            r = (r << 1) ^ (r >> 31 ? 0x04c11db7u : 0);
        table[k] = r;
    }
    uint32_t x = 12345;
    for (size_t i = 0; i < sizeof bytes; i++) {
        x = x * 1664525u + 1013904223u;
        bytes[i] = x >> 24;
    }
}

// Not inlined, since the library's is not.
__attribute__((noinline)) static uint32_t c_register(const uint8_t *s, size_t n) {
    uint32_t r = 0xffffffffu;
    for (size_t i = 0; i < n; i++)
        r = (r << 8) ^ table[(r >> 24) ^ s[i]];
    return r;
}

static void same(uint32_t c, uint32_t ours, size_t n) {
    if (c == ours)
        return;
    printf("FAILED checksum: %zu bytes, C has %08x and the library %08x\n", n, c, ours);
    exit(1);
}

// The nanoseconds of a call over n bytes; *sum gets the registers of all calls together.
static double timed(Register f, size_t n, uint32_t *sum) {
    size_t calls = BYTES_A_ROUND / n;
    uint32_t all = 0;
    double began = seconds();
    for (size_t k = 0; k < calls; k++)
        all += f(bytes + k % STARTS, n);
    double ended = seconds();
    *sum = all;
    return (ended - began) * 1e9 / calls;
}

static void time_both(size_t n) {
    double c = 1e18, ours = 1e18;
    for (int k = 0; k < ROUNDS; k++) {
        uint32_t c_sum, our_sum;
        double t = timed(c_register, n, &c_sum);
        if (t < c)
            c = t;
        t = timed(bench_register, n, &our_sum);
        if (t < ours)
            ours = t;
        same(c_sum, our_sum, n);
    }
    printf("%6zu %10.1f %10.1f %8.2f\n", n, c, ours, c / ours);
}

static volatile uint32_t result;

static void on_the_stack(void) { result = bench_register(bytes, LONGEST); }

int main(void) {
    static const size_t sizes[] = {14, 16, 37, 64, 90, 255, 256, 1024, 1700, 4092, 4096};
    fill();
    for (size_t n = 0; n <= LONGEST; n++)
        same(c_register(bytes + n % STARTS, n), bench_register(bytes + n % STARTS, n), n);
    printf(" bytes       C ns    ours ns  C/ours\n");
    for (size_t k = 0; k < sizeof sizes / sizeof *sizes; k++)
        time_both(sizes[k]);
    long taken = stack_of(on_the_stack);
    same(c_register(bytes, LONGEST), result, LONGEST);
    printf("stack of a call over %d bytes: %ld bytes\n", LONGEST, taken);
    return 0;
}
