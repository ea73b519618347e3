// Events with their titles, and extended texts, by the library and by libucsi (Debian's dvb-apps), on the same sections in one run: each side
// judges the section as it does and decodes every text. Both must find as many characters.
#define _GNU_SOURCE
#include <libucsi/atsc/eit_section.h>
#include <libucsi/atsc/ett_section.h>
#include <libucsi/atsc/section.h>
#include <stdint.h>
#include <stdio.h>
#include <stdlib.h>
#include <string.h>

#include "clock.h"
#include "guide.h"
#include "stream.h"

enum { ROUNDS = 15, LONGEST = GUIDE_LONGEST };

static uint8_t section[LONGEST];
static size_t size;

// ---- libucsi: it turns the bytes of a section round where they stand, so it has a copy
static uint8_t *text;
static size_t room;

static size_t ucsi_text(struct atsc_text *t) {
    struct atsc_text_string *string = t ? atsc_text_strings_first(t) : NULL;
    struct atsc_text_string_segment *segment;
    size_t end = 0;
    int i;
    if (!string)
        return 0;
    atsc_text_string_segments_for_each(string, segment, i)
        if (atsc_text_segment_decode(segment, &text, &room, &end) < 0)
            return 0;
    return end;
}

static struct atsc_section_psip *ucsi_judged(const uint8_t *s, size_t n) {
    memcpy(section, s, n);
    struct section *codec = section_codec(section, n);
    struct section_ext *extended = codec ? section_ext_decode(codec, 1) : NULL;
    return extended ? atsc_section_psip_decode(extended) : NULL;
}

static size_t ucsi_titles(const uint8_t *s, size_t n) {
    struct atsc_section_psip *psip = ucsi_judged(s, n);
    struct atsc_eit_section *eit = psip ? atsc_eit_section_codec(psip) : NULL;
    struct atsc_eit_event *event;
    size_t characters = 0;
    int i;
    if (!eit)
        return 0;
    atsc_eit_section_events_for_each(eit, event, i)
        characters += ucsi_text(atsc_eit_event_name_title_text(event));
    return characters;
}

static size_t ucsi_extended(const uint8_t *s, size_t n) {
    struct atsc_section_psip *psip = ucsi_judged(s, n);
    struct atsc_ett_section *ett = psip ? atsc_ett_section_codec(psip) : NULL;
    return ett ? ucsi_text(atsc_ett_section_extended_text_message(ett)) : 0;
}

// ---- the library
static guide_titled_event rows[GUIDE_MOST_EVENTS];
static uint16_t units[8 * LONGEST];

static size_t our_titles(const uint8_t *s, size_t n) {
    guide_titles_told told;
    return guide_titles(s, n, rows, GUIDE_NUMBERS(rows), units, 8 * LONGEST, &told) ? 0 : told.units;
}

static size_t our_extended(const uint8_t *s, size_t n) {
    const guide_which which = {.text = GUIDE_EXTENDED_TEXT};
    guide_units_told told;
    return guide_text(s, n, &which, units, 8 * LONGEST, &told) ? 0 : told.units;
}

// ---- both
static size_t all(size_t (*read)(const uint8_t *, size_t), size_t *sections) {
    size_t characters = 0, n;
    *sections = 0;
    for (size_t at = 0; at < size; at += 2 + n, ++*sections) {
        n = 256 * bytes[at] + bytes[at + 1];
        characters += read(bytes + at + 2, n);
    }
    return characters;
}

static void compared(const char *folder, const char *name, const char *what, size_t (*peer)(const uint8_t *, size_t),
                     size_t (*ours)(const uint8_t *, size_t)) {
    size = read_stream(folder, name);
    double least[2] = {1e18, 1e18};
    size_t found[2], sections;
    for (int k = 0; k < ROUNDS; k++) {
        for (int side = 0; side < 2; side++) {
            double began = seconds();
            found[side] = all(side ? ours : peer, &sections);
            double t = seconds() - began;
            if (t < least[side])
                least[side] = t;
        }
    }
    if (found[0] != found[1]) {
        printf("FAILED %s: libucsi reads %zu characters, the library %zu\n", what, found[0], found[1]);
        exit(1);
    }
    printf("%-32s %9zu %12.0f %12.0f %10.2f\n", what, found[0] / sections, least[0] * 1e9 / sections, least[1] * 1e9 / sections, least[0] / least[1]);
}

int main(int argc, char **argv) {
    if (argc != 2)
        return 1;
    printf("%-32s %9s %12s %12s %10s\n", "a section", "letters", "libucsi ns", "ours ns", "times");
    compared(argv[1], "plain", "EIT, 40 plain titles", ucsi_titles, our_titles);
    compared(argv[1], "type1", "EIT, 40 compressed titles", ucsi_titles, our_titles);
    compared(argv[1], "type2", "ETT, compressed description", ucsi_extended, our_extended);
    return 0;
}
