// Judging whole sections: time per call against the checksum alone.
#define _GNU_SOURCE
#include <stdint.h>
#include <stdio.h>
#include <stdlib.h>

#include "pair.h"

uint32_t bench_register(const uint8_t *s, size_t n);
uint8_t bench_judge(const uint8_t *s, size_t n);

static const Section *volatile given;
static uint32_t volatile sum;

static void accepted(const Section *s) {
    unsigned k = bench_judge(s->bytes, s->n);
    if (k) {
        printf("FAILED judge: %s refused %u\n", s->name, k);
        exit(1);
    }
}

static void sum_it(void) { sum = bench_register(given->bytes, given->n); }

static void judge_it(void) { accepted(given); }

int main(void) {
    static Section sections[WORST];
    worst_sections(sections);
    pair_head("checksum ns", "judge ns");
    for (int k = 0; k < WORST; k++) {
        given = &sections[k];
        pair_line(&sections[k], sum_it, judge_it);
    }
    return 0;
}
