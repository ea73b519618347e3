// The calls on lent memory, at 64 places and 16 watches: time per call, and every answer is checked. bench/shelf.c has the same of the calls by value.
#define _GNU_SOURCE
#include <stdio.h>
#include <stdlib.h>
#include <string.h>

#include "clock.h"
#include "sections.h"
#include "stack/lent.h"

enum { ROUNDS = 9, CALLS = 16384 };

static uint32_t question[QUESTION] = {0, 0xCB, 7, 0};

static uint32_t made(guide_shelf_call c, const Section *s) {
    return call_on(c, held.watch, RECORDS, held.place[0], PLACES * ROW, area, sizeof area, s->bytes, s->n, question, QUESTION, held.reply, REPLY);
}

// The section with another version and number.
static void numbered(Section *s, const Section *from, unsigned version, unsigned number) {
    *s = *from;
    renumber(s, version, number, QUOTA - 1);
}

static double best(guide_shelf_call c, const Section *sections, size_t n) {
    double least = 1e18;
    for (int k = 0; k < ROUNDS; k++) {
        uint32_t refused = 0;
        double began = seconds();
        for (int i = 0; i < CALLS; i++) {
            question[0] = i % RECORDS;
            question[3] = i / RECORDS % QUOTA;
            refused += made(c, &sections[i / RECORDS % n]) != 0;
        }
        double t = (seconds() - began) * 1e9 / CALLS;
        if (refused) {
            printf("FAILED lent: %u calls refused\n", refused);
            exit(1);
        }
        if (t < least)
            least = t;
    }
    return least;
}

static void deliveries(const Section *s) {
    static Section same[QUOTA], turns[2];
    for (unsigned k = 0; k < QUOTA; k++)
        numbered(&same[k], s, 3, k);
    numbered(&turns[0], s, 4, 0);
    numbered(&turns[1], s, 5, 0);
    fill();
    printf("%-34s %-16s %6zu %10.0f\n", s->name, "same edition", s->n, best(lent_deliver, same, QUOTA));
    fill();
    printf("%-34s %-16s %6zu %10.0f\n", s->name, "another edition", s->n, best(lent_deliver, turns, 2));
}

int main(void) {
    static Section empty, full;
    begin(&empty, "EIT, no event", 0xCB);
    put(&empty, 0);
    seal(&empty);
    full_event(&full);
    fill();
    printf("lent_status %10.0f ns\nlent_fetch  %10.0f ns\n\n", best(lent_status, &empty, 1), best(lent_fetch, &empty, 1));
    printf("%-34s %-16s %6s %10s\n", "section", "delivered", "bytes", "lent ns");
    deliveries(&empty);
    deliveries(&full);
    return 0;
}
