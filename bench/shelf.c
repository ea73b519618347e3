// The shelf: the test of its rules, through a status call, at several numbers of places; and a delivery beside judging
// and copying the section alone. Every answer is counted and checked.
#define _GNU_SOURCE
#include <stdint.h>
#include <stdio.h>
#include <stdlib.h>
#include <string.h>

#include "clock.h"
#include "sections.h"

uint8_t bench_judge(const uint8_t *s, size_t n);
uint64_t bench_statuses(uint8_t *area, size_t size, size_t watches, size_t quota, const uint8_t *first, size_t n,
                           size_t rounds);
uint64_t bench_deliveries(uint8_t *area, size_t size, size_t watches, size_t quota, const uint8_t *first, size_t n,
                             const uint8_t *then, size_t m, size_t rounds);

enum { ROUNDS = 9, CALLS = 16384, PLACE = 4096, PLACES = 64, WATCHES = 16 };

static uint8_t area[PLACES * PLACE];

// Sections one after the other, and how many.
typedef struct {
    uint8_t bytes[PLACES * LONGEST];
    size_t n, count;
} Run;

// The section with another version and number, behind those of the run.
static void add(Run *r, const Section *s, unsigned version, unsigned number, unsigned last) {
    Section t = *s;
    renumber(&t, version, number, last);
    memcpy(r->bytes + r->n, t.bytes, t.n);
    r->n += t.n;
    r->count++;
}

// All sections that a watch of this quota can hold.
static void add_all(Run *r, const Section *s, unsigned quota) {
    r->n = r->count = 0;
    for (unsigned k = 0; k < quota; k++)
        add(r, s, 3, k, quota - 1);
}

static void no_event(Section *s) {
    begin(s, "EIT, no event", 0xCB);
    put(s, 0);
    seal(s);
}

// What is measured: calls on a shelf, `rounds` times over all watches.
typedef struct {
    size_t places, watches;
    const Run *first, *then; // no `then`: status calls
} Work;

static uint64_t done(const Work *w, size_t rounds) {
    size_t size = w->places * PLACE, quota = w->places / w->watches;
    if (!w->then)
        return bench_statuses(area, size, w->watches, quota, w->first->bytes, w->first->n, rounds);
    return bench_deliveries(area, size, w->watches, quota, w->first->bytes, w->first->n, w->then->bytes, w->then->n, rounds);
}

static double best_of(const Work *w, size_t rounds) {
    size_t calls = rounds * w->watches * (w->then ? w->then->count : 1);
    double best = 1e18;
    for (int k = 0; k < ROUNDS; k++) {
        double began = seconds();
        uint64_t answered = done(w, rounds);
        double t = seconds() - began;
        if (answered != calls) {
            printf("FAILED shelf: %llu calls of %zu\n", (unsigned long long)answered, calls);
            exit(1);
        }
        if (t < best)
            best = t;
    }
    return best;
}

// The nanoseconds of one call: the making of the shelf is measured alone and taken off.
static double call_ns(const Work *w) {
    size_t each = w->watches * (w->then ? w->then->count : 1), rounds = CALLS / each;
    return (best_of(w, rounds) - best_of(w, 0)) * 1e9 / (rounds * each);
}

static void statuses(size_t watches, size_t places) {
    static Run first;
    Section s;
    no_event(&s);
    add_all(&first, &s, places / watches);
    Work w = {places, watches, &first, NULL};
    printf("%6zu %8zu %12.0f\n", places, watches, call_ns(&w));
}

static double judge_ns(const Section *s) {
    double best = 1e18;
    for (int k = 0; k < ROUNDS; k++) {
        unsigned refused = 0;
        double began = seconds();
        for (int i = 0; i < CALLS; i++)
            refused += bench_judge(s->bytes, s->n) != 0;
        double t = (seconds() - began) * 1e9 / CALLS;
        if (refused) {
            printf("FAILED shelf: %s refused\n", s->name);
            exit(1);
        }
        if (t < best)
            best = t;
    }
    return best;
}

// The section copied to one place after the other.
static double copy_ns(const Section *s) {
    double best = 1e18;
    for (int k = 0; k < ROUNDS; k++) {
        double began = seconds();
        for (int i = 0; i < CALLS; i++) {
            memcpy(area + i % PLACES * PLACE, s->bytes, s->n);
            __asm__ volatile("" ::: "memory");
        }
        double t = (seconds() - began) * 1e9 / CALLS;
        if (t < best)
            best = t;
    }
    return best;
}

static void delivery(const char *what, const Section *s, const Run *first, const Run *then) {
    Work w = {PLACES, WATCHES, first, then};
    double all = call_ns(&w), judge = judge_ns(s), copy = copy_ns(s);
    printf("%-34s %-16s %6zu %10.0f %10.0f %8.0f %10.0f\n", s->name, what, s->n, all, judge, copy, all - judge - copy);
}

// Sections of the edition that is kept, to all places in turn; then another edition at every delivery.
static void deliveries(const Section *s) {
    static Run first, then;
    add_all(&first, s, PLACES / WATCHES);
    delivery("same edition", s, &first, &first);
    then.n = then.count = 0;
    add(&then, s, 4, 0, PLACES / WATCHES - 1);
    add(&then, s, 3, 0, PLACES / WATCHES - 1);
    delivery("another edition", s, &first, &then);
}

int main(void) {
    static const size_t places[] = {1, 4, 8, 16, 32, 64};
    printf("%6s %8s %12s\n", "places", "watches", "status ns");
    for (size_t k = 0; k < sizeof places / sizeof *places; k++)
        statuses(1, places[k]);
    for (size_t k = 0; k < sizeof places / sizeof *places; k++)
        if (places[k] >= WATCHES)
            statuses(WATCHES, places[k]);
    printf("\n%-34s %-16s %6s %10s %10s %8s %10s\n", "section", "delivered", "bytes", "deliver ns", "judge ns", "copy ns", "beyond ns");
    Section small, large;
    no_event(&small);
    deliveries(&small);
    full_event(&large);
    deliveries(&large);
    return 0;
}
