// Two calls on a section, the second against the first: the least time of each over rounds in which both are measured, so that what slows
// the machine meets both.
#include <stdio.h>

#include "clock.h"
#include "sections.h"

enum { ROUNDS = 9, CALLS = 400 };

static double a_call(void (*call)(void)) {
    double began = seconds();
    for (int i = 0; i < CALLS; i++)
        call();
    return (seconds() - began) * 1e9 / CALLS;
}

static double less(double a, double b) { return a < b ? a : b; }

static void pair_head(const char *first, const char *second) {
    printf("%-36s %6s %12s %10s %8s\n", "section", "bytes", first, second, "ratio");
}

static void pair_line(const Section *s, void (*first)(void), void (*second)(void)) {
    double a = 1e18, b = 1e18;
    for (int k = 0; k < ROUNDS; k++) {
        a = less(a_call(first), a);
        b = less(a_call(second), b);
    }
    printf("%-36s %6zu %12.0f %10.0f %8.2f\n", s->name, s->n, a, b, b / a);
}
