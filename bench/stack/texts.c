// Reading texts: each of the seven of a section, and those of fields by themselves, compressed and plain.
#include "guide_calls.h"

static guide_which which;
static uint32_t string, count;
static guide_heading_told heading;
static guide_units_told told;
static uint16_t units[8 * LONGEST];

CALL(guide_strings, &which, &count)
CALL(guide_heading, &which, &heading)
CALL(guide_units, &which, &told)
CALL(guide_text, &which, units, 8 * LONGEST, &told)
CALL(guide_field_strings, &count)
CALL(guide_field_heading, string, &heading)
CALL(guide_field_units, string, &told)
CALL(guide_field_text, string, units, 8 * LONGEST, &told)

static void blank(void) {
    count = 0;
    heading = (guide_heading_told){.segments = 1000};
    told = (guide_units_told){0};
    memset(units, 0, sizeof units);
}

enum { ENGLISH = 'e' << 16 | 'n' << 8 | 'g' };

// Where a text stands, and how many segments and units it has.
typedef struct {
    void (*in)(Section *);
    uint32_t text, i, j, segments, units;
} Text;

static const Text of_sections[] = {
    {rated_event, GUIDE_TITLE, 0, 0, 1, PACKED(TITLE - STRING)},
    {titled_events, GUIDE_TITLE, 74, 0, 1, 26},
    {rated_event, GUIDE_ADVISORY_TEXT, 0, REGION, 1, PACKED(ADVISORY_TEXT - STRING)},
    {long_ett, GUIDE_EXTENDED_TEXT, 0, 0, SEGMENTS, SEGMENTS * PACKED(LONGEST_SEGMENT)},
    {named_rrt, GUIDE_REGION_NAME, 0, 0, 1, PACKED(NAME - STRING)},
    {named_rrt, GUIDE_DIMENSION_NAME, 0, 0, 1, PACKED(NAME - STRING)},
    {named_rrt, GUIDE_SHORT_TEXT, 0, 0, 1, PACKED(VALUE_TEXT - STRING)},
    {named_rrt, GUIDE_LONG_TEXT, 0, 0, 1, PACKED(VALUE_TEXT - STRING)},
};

// One string of one segment, of this mode and not compressed, each of whose units has the low byte 'e'.
static void put_plain(Section *s, unsigned mode, unsigned bytes) {
    put_string(s, 0, 0);
    s->bytes[s->n - 1] = 1;
    put(s, 0);
    put_word(s, mode << 8 | bytes);
    for (unsigned i = 0; i < bytes; i++)
        put(s, mode && !(i % 2) ? 1 : 'e');
}

static void plain_field(Section *s) {
    begin_field(s, "a field, one segment of 255 bytes, plain");
    put_plain(s, 0, LONGEST_SEGMENT);
}

static void wide_field(Section *s) {
    begin_field(s, "a field, one segment of 254 bytes, UTF-16");
    put_plain(s, 0x3F, LONGEST_SEGMENT - 1);
}

static void packed_field(Section *s) {
    begin_field(s, "a field of 255 bytes, one segment, compressed");
    put_string(s, 1, TITLE - STRING);
}

static void long_field(Section *s) {
    begin_field(s, "a field, 15 segments of 255 bytes, compressed");
    put_string(s, SEGMENTS, LONGEST_SEGMENT);
}

static const Text of_fields[] = {
    {plain_field, 0, 0, 0, 1, LONGEST_SEGMENT},
    {wide_field, 0, 0, 0, 1, LONGEST_SEGMENT / 2},
    {packed_field, 0, 0, 0, 1, PACKED(TITLE - STRING)},
    {long_field, 0, 0, 0, SEGMENTS, SEGMENTS * PACKED(LONGEST_SEGMENT)},
};

// The last unit is an e, but in the plain titles of a section, where it is a z.
static int ends_well(const Text *t) {
    uint16_t last = units[t->units - 1];
    return told.units == t->units && (t->in == titled_events ? last == 'z' : (last & 0xFF) == 'e');
}

// Paints a call on each of these texts.
#define ON_EACH(texts, name, good)                                               \
    do {                                                                         \
        for (const Text *t = texts; t < texts + sizeof texts / sizeof *t; t++) { \
            t->in(&asked);                                                       \
            which = (guide_which){t->text, t->i, t->j, 0};                       \
            PAINT(name, !refusal && (good));                                     \
        }                                                                        \
    } while (0)

// The last of as many strings as there can be.
#define ON_LAST(name)                                                              \
    do {                                                                           \
        which = (guide_which){GUIDE_EXTENDED_TEXT, 0, 0, STRINGS - 1};             \
        string = STRINGS - 1;                                                      \
        PAINT(name, !refusal && heading.language == ENGLISH && !heading.segments); \
        string = 0;                                                                \
    } while (0)

int main(void) {
    ON_EACH(of_sections, guide_strings, count == 1);
    tell("guide_strings");
    ON_EACH(of_sections, guide_heading, heading.language == ENGLISH && heading.segments == t->segments);
    many_strings(&asked);
    ON_LAST(guide_heading);
    tell("guide_heading");
    ON_EACH(of_sections, guide_units, told.units == t->units);
    tell("guide_units");
    ON_EACH(of_sections, guide_text, ends_well(t));
    tell("guide_text");
    ON_EACH(of_fields, guide_field_strings, count == 1);
    tell("guide_field_strings");
    ON_EACH(of_fields, guide_field_heading, heading.language == ENGLISH && heading.segments == t->segments);
    begin_field(&asked, "a field, 255 strings without a segment");
    put_strings(&asked);
    ON_LAST(guide_field_heading);
    tell("guide_field_heading");
    ON_EACH(of_fields, guide_field_units, told.units == t->units);
    tell("guide_field_units");
    ON_EACH(of_fields, guide_field_text, ends_well(t));
    tell("guide_field_text");
    return failed;
}
