// Writing sections that were read: they have their old bytes.
#include "guide_calls.h"

static guide_given given;
static guide_event_row rows[GUIDE_MOST_EVENTS];
static guide_part text;
static uint8_t out[LONGEST];
static uint32_t length;

static void run_guide_write_eit(void) {
    refusal = guide_write_eit(&given, rows, 8 * given.events, asked.bytes, asked.n, out, LONGEST, &length);
}

static void run_guide_write_ett(void) { refusal = guide_write_ett(&given, asked.bytes + text.start, text.length, out, LONGEST, &length); }

static void blank(void) {
    memset(out, 0, LONGEST);
    length = 0;
}

// What a section of these has, besides its rows or its text.
static guide_given given_with(uint32_t events) {
    return (guide_given){.extension = 7, .version = 3, .current = 1, .events = events};
}

static int as_before(void) { return !refusal && length == asked.n && same(out, asked.bytes, length); }

static void write_eit(void (*made)(Section *)) {
    uint32_t events;
    made(&asked);
    if (guide_eit_events(asked.bytes, asked.n, rows, GUIDE_NUMBERS(rows), &events))
        events = 0;
    given = given_with(events);
    PAINT(guide_write_eit, as_before());
}

static void write_ett(void (*made)(Section *)) {
    guide_ett_fields fields = {0};
    made(&asked);
    guide_ett(asked.bytes, asked.n, &fields);
    text = fields.text;
    given = given_with(fields.etm_id);
    PAINT(guide_write_ett, as_before());
}

int main(void) {
    write_eit(full_event);
    write_eit(smallest_events);
    write_eit(titled_events);
    write_eit(rated_event);
    write_eit(packed_events);
    tell("guide_write_eit");
    write_ett(long_ett);
    write_ett(many_strings);
    tell("guide_write_ett");
    return failed;
}
