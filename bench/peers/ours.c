// The library itself.
#include <guide.h>

#include "peer.h"

uint32_t bench_register(const uint8_t *s, size_t n);

static int takes(const uint8_t *s, size_t n) {
    guide_header header;
    return !guide_judge(s, n, &header);
}

static int reads(const uint8_t *s, size_t n, Read *r) {
    static guide_event_row rows[GUIDE_MOST_EVENTS];
    uint32_t count;
    if (guide_eit_events(s, n, rows, GUIDE_NUMBERS(rows), &count))
        return 0;
    r->events += count;
    for (uint32_t i = 0; i < count; i++)
        r->sum += rows[i].event_id + (uint64_t)rows[i].start_time + rows[i].length_in_seconds;
    return 1;
}

const Peer ours = {"ours", NULL, bench_register, takes, reads};
