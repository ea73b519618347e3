// The lent memory of a shelf: watch records, rows of five numbers for the places, the area, a question and a reply. Watch w has the PID w
// and the extension 7.
#include "lent_calls.h"

enum { RECORDS = 16, PLACES = 64, PLACE = 4096, QUOTA = PLACES / RECORDS, LAST = RECORDS - 1 };

typedef struct {
    guide_watch watch[RECORDS];
    uint32_t place[PLACES][ROW];
    uint32_t reply[REPLY];
} Lent;

static uint8_t area[PLACES * PLACE];
static Lent held, expected;

static guide_watch fresh_watch(unsigned w, unsigned table_id) {
    return (guide_watch){.live = 1, .key = {w, table_id, 7}, .quota = QUOTA};
}

static void hear(guide_watch *w, unsigned version, unsigned last) {
    w->heard = 1;
    w->version = version;
    w->last = last;
}

static void take(Lent *l, unsigned place, unsigned w, unsigned number, unsigned length) {
    const uint32_t row[ROW] = {1, w, number, length, 0};
    for (int i = 0; i < ROW; i++)
        l->place[place][i] = row[i];
}

// All records open, each with EITs of version 3 in as many places as its quota: every place is taken.
static void fill(void) {
    for (unsigned w = 0; w < RECORDS; w++) {
        held.watch[w] = fresh_watch(w, 0xCB);
        hear(&held.watch[w], 3, QUOTA - 1);
        for (unsigned k = 0; k < QUOTA; k++)
            take(&held, QUOTA * w + k, w, k, PLACE);
    }
    for (int i = 0; i < REPLY; i++)
        held.reply[i] = 99;
}

// The last watch's places, from its place k on.
static inline void free_from(Lent *l, unsigned k) {
    for (; k < QUOTA; k++)
        for (int i = 0; i < ROW; i++)
            l->place[QUOTA * LAST + k][i] = 0;
}

// By their fields: what stands between them is not told.
static inline int same_watch(const guide_watch *a, const guide_watch *b) {
    return a->live == b->live && a->key.pid == b->key.pid && a->key.table_id == b->key.table_id && a->key.extension == b->key.extension &&
           a->quota == b->quota && a->heard == b->heard && a->version == b->version && a->last == b->last;
}

static inline int same_numbers(const uint32_t *a, const uint32_t *b, size_t n) {
    for (size_t i = 0; i < n; i++)
        if (a[i] != b[i])
            return 0;
    return 1;
}

static inline int as_expected(void) {
    for (int w = 0; w < RECORDS; w++)
        if (!same_watch(&held.watch[w], &expected.watch[w]))
            return 0;
    return same_numbers(held.place[0], expected.place[0], PLACES * ROW) && same_numbers(held.reply, expected.reply, REPLY);
}
