// Writing an EIT from its own rows and bytes: time per call against judging the section, and the stack that a call takes, which may
// not be above 2 KiB.
#define _GNU_SOURCE
#include <stdint.h>
#include <stdio.h>
#include <stdlib.h>
#include <string.h>

#include "pair.h"
#include "stack.h"

uint8_t bench_judge(const uint8_t *s, size_t n);
size_t bench_rows(const uint8_t *s, size_t n, uint32_t *out, size_t room);
size_t bench_write(size_t count, const uint32_t *rows, size_t numbers, const uint8_t *bytes, size_t n, uint8_t *out, size_t room);

enum { MOST = 8 * 255 };

static uint32_t rows[MOST];
static uint8_t out[LONGEST];
static const Section *volatile given;
static size_t volatile count;
static uint8_t volatile judged;

static void judge_it(void) { judged = bench_judge(given->bytes, given->n); }

static void write_it(void) { bench_write(count, rows, 8 * count, given->bytes, given->n, out, sizeof out); }

static void rewritten(const Section *s) {
    given = s;
    count = bench_rows(s->bytes, s->n, rows, MOST);
    memset(out, 0xA5, sizeof out);
    size_t n = bench_write(count, rows, 8 * count, s->bytes, s->n, out, sizeof out);
    if (n != s->n || memcmp(out, s->bytes, n)) {
        printf("FAILED writing: %s is not its old bytes\n", s->name);
        exit(1);
    }
}

int main(void) {
    static Section sections[3];
    full_event(&sections[0]);
    smallest_events(&sections[1]);
    titled_events(&sections[2]);
    pair_head("judge ns", "write ns");
    for (int k = 0; k < 3; k++) {
        rewritten(&sections[k]);
        pair_line(&sections[k], judge_it, write_it);
        long taken = stack_of(write_it);
        printf("    %ld bytes of stack\n", taken);
        if (taken > 2 << 10) {
            printf("FAILED writing: a stack of %ld bytes\n", taken);
            return 1;
        }
    }
    return 0;
}
