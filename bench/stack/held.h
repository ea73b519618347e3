// A shelf as bytes, laid out as crates/shelf_bytes says, and its area. Watch w has the PID w and the extension 7.
#include <stddef.h>
#include <stdint.h>

enum { RECORDS = 16, PLACES = 64, PLACE = 4096, QUOTA = PLACES / RECORDS, LAST = RECORDS - 1 };

typedef struct {
    uint8_t open, pid[2], table_id, extension[2], quota, heard, version, last;
} Watch;

typedef struct {
    uint8_t taken, watch, number, length[2];
} Place;

typedef struct {
    uint8_t records, places, unused[2];
    Watch watch[RECORDS];
    Place place[PLACES];
} Held;

static uint8_t area[PLACES * PLACE];
static Held held, expected;

static Watch fresh_watch(unsigned w, unsigned table_id) {
    return (Watch){.open = 1, .pid = {0, w}, .table_id = table_id, .extension = {0, 7}, .quota = QUOTA};
}

static void hear(Watch *w, unsigned version, unsigned last) {
    w->heard = 1;
    w->version = version;
    w->last = last;
}

static void take(Held *h, unsigned place, unsigned w, unsigned number, size_t length) {
    h->place[place] = (Place){1, w, number, {length >> 8, length}};
}

// All records open, each with EITs of version 3 in as many places as its quota: every place is taken.
static void fill(void) {
    held.records = RECORDS;
    held.places = PLACES;
    for (unsigned w = 0; w < RECORDS; w++) {
        held.watch[w] = fresh_watch(w, 0xCB);
        hear(&held.watch[w], 3, QUOTA - 1);
        for (unsigned k = 0; k < QUOTA; k++)
            take(&held, QUOTA * w + k, w, k, PLACE);
    }
}

// The last watch's places, from its place k on.
static inline void free_from(Held *h, unsigned k) {
    for (; k < QUOTA; k++)
        h->place[QUOTA * LAST + k] = (Place){0};
}

static int as_expected(void) {
    const uint8_t *a = (const uint8_t *)&held, *b = (const uint8_t *)&expected;
    for (size_t i = 0; i < sizeof held; i++)
        if (a[i] != b[i])
            return 0;
    return 1;
}
