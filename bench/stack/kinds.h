// Sections of every kind, each as full as its kind allows in one way, and long texts.
#include "sections.h"

static inline void put_word(Section *s, unsigned x) {
    put(s, x >> 8);
    put(s, x);
}

// A list of n empty descriptors behind its length, in whose word so many high bits are reserved.
static inline void put_list(Section *s, int reserved, unsigned n) {
    put_word(s, (0xFFFF << (16 - reserved) & 0xFFFF) | 2 * n);
    for (unsigned i = 0; i < n; i++)
        put_word(s, 0x8000);
}

// A compressed segment of so many bytes, and how many units it has: a raw nine, nines of two bits 0 each, a raw e, and the end.
#define PACKED(bytes) (4 * (bytes) - 13)

static inline void put_segment(Section *s, unsigned bytes) {
    put(s, 1);
    put(s, 0);
    put(s, bytes);
    put_word(s, 0xCB39);
    for (unsigned i = 4; i < bytes; i++)
        put(s, 0);
    put_word(s, 0x3652);
}

// One string of so many such segments.
static inline void put_string(Section *s, unsigned segments, unsigned bytes) {
    put(s, 1);
    put(s, 'e');
    put_word(s, 'n' << 8 | 'g');
    put(s, segments);
    for (unsigned i = 0; i < segments; i++)
        put_segment(s, bytes);
}

// The head of a string of one segment.
enum { STRING = 8 };

// A text of one such segment behind its length: so many bytes in all.
static inline void put_text(Section *s, unsigned bytes) {
    put(s, bytes);
    put_string(s, 1, bytes - STRING);
}

// Bytes that are no section: a text field or a list by itself.
static inline void begin_field(Section *s, const char *name) {
    s->name = name;
    s->n = 0;
}

// ---- MGT
static inline void put_table(Section *s, unsigned descriptors) {
    static const uint8_t fields[] = {1, 0, 0xFD, 0, 0xE3, 0, 0, 4, 0};
    for (size_t i = 0; i < sizeof fields; i++)
        put(s, fields[i]);
    put_list(s, 4, descriptors);
}

static inline void mgt(Section *s, const char *name, unsigned tables, unsigned descriptors) {
    begin(s, name, 0xC7);
    put_word(s, tables);
    for (unsigned i = 0; i < tables; i++)
        put_table(s, descriptors);
    put_list(s, 4, 0);
    seal(s);
}

// ---- TVCT
static inline void put_channel(Section *s, unsigned descriptors) {
    static const uint8_t fields[] = {0, 'K', 0, 'X', 0,    'Y', 0, 'Z', 0, 0, 0, 0, 0,    0,   0xF0,
                                     8, 1,   4, 0,  0, 0, 0,   0, 7,   0, 3, 0x0D, 0xC2, 0x10, 9};
    for (size_t i = 0; i < sizeof fields; i++)
        put(s, fields[i]);
    put_list(s, 6, descriptors);
}

static inline void tvct(Section *s, const char *name, unsigned channels, unsigned of_each, unsigned behind) {
    begin(s, name, 0xC8);
    put(s, channels);
    for (unsigned i = 0; i < channels; i++)
        put_channel(s, of_each);
    put_list(s, 6, behind);
    seal(s);
}

// ---- RRT
static inline void put_dimension(Section *s, unsigned values) {
    put(s, 0);
    put(s, 0xE0 | values);
    for (unsigned i = 0; i < values; i++)
        put_word(s, 0);
}

// So many dimensions without a name, each of them of so many values; and one of fewer where there is room for no more of those.
static inline void rrt(Section *s, const char *name, unsigned dimensions, unsigned values, unsigned fewer, unsigned descriptors) {
    begin(s, name, 0xCA);
    put(s, 0);
    put(s, dimensions + !!fewer);
    for (unsigned i = 0; i < dimensions; i++)
        put_dimension(s, values);
    if (fewer)
        put_dimension(s, fewer);
    put_list(s, 6, descriptors);
    seal(s);
}

// How many values an RRT has in all, and its last dimension.
typedef struct {
    uint32_t all, last;
} Values;

static inline Values values_in(const Section *s) {
    const uint8_t *b = s->bytes;
    size_t at = 10 + b[9];
    Values found = {0, 0};
    for (int left = b[at++]; left; left--) {
        at += 1 + b[at];
        found.last = b[at++] & 15;
        found.all += found.last;
        for (uint32_t texts = 2 * found.last; texts; texts--)
            at += 1 + b[at];
    }
    return found;
}

// A region, a dimension and a value, all named.
enum { NAME = 255, VALUE_TEXT = 246 };

static inline void named_rrt(Section *s) {
    begin(s, "RRT, four compressed texts", 0xCA);
    put_text(s, NAME);
    put(s, 1);
    put_text(s, NAME);
    put(s, 0xE1);
    put_text(s, VALUE_TEXT);
    put_text(s, VALUE_TEXT);
    put_list(s, 6, 0);
    seal(s);
}

// ---- EIT: an event whose title is compressed, with as many descriptors as then fit, of which the last is the advisory
enum { TITLE = 255, REGION = 9, DIMENSION = 3, RATED = 5, REGIONS = 20, ADVISORY_TEXT = 190, ADVISORY = 1 + 3 * (REGIONS - 1) + 7 + ADVISORY_TEXT };
enum { DESCRIPTORS = 1780 };

// The last of its regions is REGION, which has a text; and the last dimension of that is DIMENSION, which has the value RATED.
static inline void put_advisory(Section *s) {
    put_word(s, 0x87 << 8 | ADVISORY);
    put(s, 0xC0 | REGIONS);
    for (unsigned i = 1; i < REGIONS; i++) {
        put(s, REGION + i);
        put_word(s, 0);
    }
    put_word(s, REGION << 8 | 2);
    put_word(s, (DIMENSION + 1) << 8 | 0xF0);
    put_word(s, DIMENSION << 8 | 0xF0 | RATED);
    put_text(s, ADVISORY_TEXT);
}

static inline void put_descriptors(Section *s) {
    for (unsigned i = 1; i < DESCRIPTORS; i++)
        put_word(s, 0x8000);
    put_advisory(s);
}

static inline void rated_event(Section *s) {
    begin(s, "EIT, one event, compressed title, advisory behind 1779 descriptors", 0xCB);
    put(s, 1);
    event(s, 0, 0);
    s->n -= 3;
    put_text(s, TITLE);
    put_word(s, 0xF000 | (2 * DESCRIPTORS + ADVISORY));
    put_descriptors(s);
    seal(s);
}

// "The next", compressed, in as many events as a section holds.
enum { PACKED_EVENTS = 163, PACKED_UNITS = 8 };

static inline void packed_events(Section *s) {
    static const uint8_t title[] = {13, 1, 'e', 'n', 'g', 1, 1, 0, 5, 67, 40, 220, 132, 212};
    begin(s, "EIT, 163 events, compressed titles", 0xCB);
    put(s, PACKED_EVENTS);
    for (int i = 0; i < PACKED_EVENTS; i++) {
        event(s, 0, 0);
        s->n -= 3;
        for (size_t k = 0; k < sizeof title; k++)
            put(s, title[k]);
        put_word(s, 0xF000);
    }
    seal(s);
}

// ---- ETT: as many segments of the longest as fit; and as many strings as there can be, none of which has a segment
enum { SEGMENTS = 15, LONGEST_SEGMENT = 255, STRINGS = 255 };

static inline void begin_ett(Section *s, const char *name) {
    begin(s, name, 0xCC);
    put_word(s, 7);
    put_word(s, 0x16);
}

static inline void long_ett(Section *s) {
    begin_ett(s, "ETT, 15 compressed segments of 255 bytes");
    put_string(s, SEGMENTS, LONGEST_SEGMENT);
    seal(s);
}

static inline void put_strings(Section *s) {
    put(s, STRINGS);
    for (unsigned i = 0; i < STRINGS; i++) {
        put_word(s, 'e' << 8 | 'n');
        put_word(s, 'g' << 8);
    }
}

static inline void many_strings(Section *s) {
    begin_ett(s, "ETT, 255 strings without a segment");
    put_strings(s);
    seal(s);
}

// ---- all of them
// How many entries a section has: tables, channels, dimensions or events.
static inline uint32_t entries_in(const Section *s) {
    const uint8_t *b = s->bytes;
    return b[0] == 0xC7 ? b[9] << 8 | b[10] : b[0] == 0xCA ? b[10 + b[9]] : b[9];
}

enum { FULL = 17 };

static inline void full_sections(Section *s) {
    full_mgt(s++);
    mgt(s++, "MGT, 370 tables", 370, 0);
    mgt(s++, "MGT, one table, 2034 descriptors", 1, 2034);
    tvct(s++, "TVCT, 31 channels", 31, 0, 0);
    tvct(s++, "TVCT, one channel, 488 descriptors", 1, 488, 0);
    tvct(s++, "TVCT, no channel, 504 descriptors", 0, 0, 504);
    rrt(s++, "RRT, 251 dimensions of one value", 251, 1, 0, 0);
    rrt(s++, "RRT, 471 values", 31, 15, 6, 0);
    rrt(s++, "RRT, one dimension, 501 descriptors", 1, 1, 0, 501);
    named_rrt(s++);
    full_event(s++);
    smallest_events(s++);
    titled_events(s++);
    rated_event(s++);
    packed_events(s++);
    long_ett(s++);
    many_strings(s++);
}
