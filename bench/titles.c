// Ten thousand compressed titles, by the library and by a straightforward decoder in C; and the stack
// that the library takes for them. Both sides must decode all of them.
#define _GNU_SOURCE
#include <stdint.h>
#include <stdio.h>
#include <stdlib.h>
#include <string.h>

#include "clock.h"
#include "stack.h"
#include "table.h"

size_t bench_titles(const uint8_t *s, size_t n, uint16_t *out, size_t room);

enum { ROUNDS = 9, TITLES = 10000, ROOM = 2040 };

static uint8_t bytes[1 << 20];
static size_t size;

static int bit(const uint8_t *s, size_t i) { return s[i / 8] >> (7 - i % 8) & 1; }

// Not inlined, since the library's is not.
__attribute__((noinline)) static int decode(const uint8_t *s, size_t n, uint16_t *out) {
    size_t at = 0, total = 8 * n, units = 0;
    unsigned prior = 0;
    for (;;) {
        const unsigned char *tree = table + 256 * table[2 * prior] + table[2 * prior + 1];
        unsigned node = 0;
        do {
            if (at == total)
                return -1;
            node = tree[2 * node + bit(s, at++)];
        } while (node < 128);
        unsigned symbol = node - 128;
        if (symbol == 0)
            return total - at < 8 ? (int)units : -1;
        if (symbol == 27) {
            if (total - at < 8)
                return -1;
            symbol = 0;
            for (int k = 0; k < 8; k++)
                symbol = symbol << 1 | bit(s, at++);
            if (symbol > 127)
                return -1;
        }
        out[units++] = symbol;
        prior = symbol;
    }
}

static size_t c_titles(const uint8_t *s, size_t n, uint16_t *out, size_t room) {
    size_t texts = 0;
    (void)room;
    for (size_t at = 0; at < n; at += 1 + s[at])
        texts += decode(s + at + 1, s[at], out) >= 0;
    return texts;
}

static uint16_t room[ROOM];

static double timed(size_t (*f)(const uint8_t *, size_t, uint16_t *, size_t)) {
    double best = 1e18;
    for (int k = 0; k < ROUNDS; k++) {
        double began = seconds();
        size_t texts = f(bytes, size, room, ROOM);
        double t = seconds() - began;
        if (texts != TITLES) {
            printf("FAILED titles: %zu decoded\n", texts);
            exit(1);
        }
        if (t < best)
            best = t;
    }
    return best;
}

static void on_the_stack(void) { bench_titles(bytes, size, room, ROOM); }

int main(int argc, char **argv) {
    FILE *f = argc == 2 ? fopen(argv[1], "rb") : NULL;
    if (!f)
        return 1;
    size = fread(bytes, 1, sizeof bytes, f);
    fclose(f);
    double c = timed(c_titles), ours = timed(bench_titles);
    printf("%d titles, %zu bytes: C %.0f us, ours %.0f us, ours / C %.2f\n", TITLES, size, c * 1e6, ours * 1e6, ours / c);
    printf("stack: %ld bytes\n", stack_of(on_the_stack));
    return 0;
}
