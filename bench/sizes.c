// One call on an input of one size: sizes CALL FILE [TIMES]. CALL is judge, events, text or, with a number of places for FILE, status or deliver. It prints the least nanoseconds
// of a call; with TIMES it makes so many calls and prints nothing, for a tool that counts instructions.
#define _GNU_SOURCE
#include <guide.h>
#include <stdio.h>
#include <stdlib.h>
#include <string.h>

#include "clock.h"

enum { ROUNDS = 9, PID = 0x1D00 };

static uint8_t bytes[1 << 16];
static size_t size;

// ---- the calls; each must be done
static uint32_t judge(void) {
    guide_header header;
    return guide_judge(bytes, size, &header);
}

static uint32_t events(void) {
    static guide_event_row rows[GUIDE_MOST_EVENTS];
    uint32_t count;
    return guide_eit_events(bytes, size, rows, GUIDE_NUMBERS(rows), &count);
}

static uint32_t text(void) {
    static uint16_t units[8000];
    guide_units_told told;
    return guide_field_text(bytes, size, 0, units, 8000, &told);
}

// A shelf of so many places, all taken, of sixteen watches or as many as there are places.
static guide_watch watches[16];
static guide_place places[64];
static uint8_t area[64 * GUIDE_LONGEST];
static guide_shelf shelf = {watches, 16, places, 0, area, 0};
static uint8_t small[64][14];
static size_t shelved, watched;

static uint32_t status(void) {
    guide_reply reply;
    return guide_status(&shelf, PID, GUIDE_EIT, watched - 1, &reply);
}

static uint32_t deliver(void) {
    return guide_deliver(&shelf, PID, small[shelved - 1], 14);
}

static void fail(const char *what) {
    printf("FAILED sizes: %s\n", what);
    exit(1);
}

static void fill(void) {
    watched = shelved < 16 ? shelved : 16;
    shelf.place_count = shelved;
    shelf.area_size = shelved * GUIDE_LONGEST;
    for (size_t i = 0; i < watched; i++)
        if (guide_open(&shelf, PID, GUIDE_EIT, i, shelved / watched))
            fail("a watch is not opened");
    for (size_t i = 0; i < shelved; i++) {
        const guide_given given = {i / (shelved / watched), 3, 1, i % (shelved / watched), shelved / watched - 1, 0};
        uint32_t length;
        if (guide_write_eit(&given, NULL, 0, NULL, 0, small[i], 14, &length) || guide_deliver(&shelf, PID, small[i], 14))
            fail("a section is not kept");
    }
}

static double least(uint32_t (*call)(void)) {
    double best = 1e18;
    size_t calls = 1;
    for (int k = 0; k < ROUNDS;) {
        double began = seconds();
        for (size_t i = 0; i < calls; i++)
            if (call())
                fail("a call is refused");
        double t = seconds() - began;
        if (t < 2e-3) {
            calls *= 2;
            continue;
        }
        best = t / calls < best ? t / calls : best;
        k++;
    }
    return best * 1e9;
}

int main(int argc, char **argv) {
    if (argc < 3)
        fail("usage: sizes CALL FILE|PLACES [TIMES]");
    uint32_t (*call)(void) = !strcmp(argv[1], "judge") ? judge : !strcmp(argv[1], "events") ? events : !strcmp(argv[1], "text") ? text
                           : !strcmp(argv[1], "status") ? status : deliver;
    if (call == status || call == deliver) {
        shelved = atoi(argv[2]);
        fill();
    } else {
        FILE *f = fopen(argv[2], "rb");
        if (!f)
            fail("no file");
        size = fread(bytes, 1, sizeof bytes, f);
        fclose(f);
    }
    if (argc == 3) {
        printf("%.0f\n", least(call));
        return 0;
    }
    for (int i = atoi(argv[3]); i > 0; i--)
        if (call())
            fail("a call is refused");
    return 0;
}
