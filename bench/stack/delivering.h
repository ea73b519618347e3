// Delivering to the last watch of a full shelf: each of the full sections of every kind, once of the edition that is kept and once of another,
// for which the watch's sections are dropped. The shelf is that of held.h or of lent.h.
#include "kinds.h"
#include "painted.h"

static Section delivered;
static uint32_t refusal;

static int stored(void) {
    for (size_t i = 0; i < delivered.n; i++)
        if (area[QUOTA * LAST * PLACE + i] != delivered.bytes[i])
            return 0;
    return 1;
}

// Only a TVCT and an EIT can be one of several sections of their table.
static unsigned last_number(unsigned table_id) { return table_id == 0xC8 || table_id == 0xCB ? QUOTA - 1 : 0; }

static void deliver(const char *name, void (*call)(void), const Section *s, unsigned version) {
    unsigned table_id = s->bytes[0], last = last_number(table_id);
    fill();
    held.watch[LAST] = fresh_watch(LAST, table_id);
    hear(&held.watch[LAST], 3, last);
    free_from(&held, last + 1);
    delivered = *s;
    renumber(&delivered, version, 0, last);
    expected = held;
    hear(&expected.watch[LAST], version, last);
    if (version != 3)
        free_from(&expected, 0);
    take(&expected, QUOTA * LAST, LAST, 0, s->n);
    long taken = stack_of(call);
    painted(name, s->name, taken, !refusal && stored() && as_expected());
}

static void deliver_all(const char *name, void (*call)(void)) {
    static Section sections[FULL];
    full_sections(sections);
    for (int k = 0; k < FULL; k++) {
        deliver(name, call, &sections[k], 3);
        deliver(name, call, &sections[k], 4);
    }
    tell(name);
}
