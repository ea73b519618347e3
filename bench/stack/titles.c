// All events and titles of EITs, plain and compressed: with room to decode each title at once, and with just as much as they take, for which they
// are counted first.
#include "guide_calls.h"

static guide_titled_event events[GUIDE_MOST_EVENTS];
static uint16_t units[8 * LONGEST];
static size_t room;
static guide_titles_told told;

CALL(guide_titles, events, GUIDE_NUMBERS(events), units, room, &told)

static void blank(void) {
    memset(events, 0, sizeof events);
    memset(units, 0, sizeof units);
    told = (guide_titles_told){0};
}

// So many units are told, and the last event's are the last of them.
static int are_units(uint32_t size) {
    const guide_titled_event *last = &events[entries_in(&asked) - 1];
    return !refusal && told.events == entries_in(&asked) && told.units == size && last->first_unit + last->units == size;
}

static void both(uint32_t size, uint16_t last_unit) {
    room = 8 * LONGEST;
    PAINT(guide_titles, are_units(size) && units[size - 1] == last_unit);
    room = size;
    PAINT(guide_titles, are_units(size) && units[size - 1] == last_unit);
}

int main(void) {
    titled_events(&asked);
    both(75 * 26, 'z');
    packed_events(&asked);
    both(PACKED_EVENTS * PACKED_UNITS, 't');
    rated_event(&asked);
    both(PACKED(TITLE - STRING), 'e');
    tell("guide_titles");
    return failed;
}
