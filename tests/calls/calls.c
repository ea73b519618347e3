/* The vectors of a test program through the calls of guide.h: calls judging|reading|text|writing, with the program's stdin. It prints the lines that the
 * program prints (tests/README.md), without those of the vectors that no call of C asks: a kind of text or of list that only the sources have, and numbers
 * above 32 bits. What a call tells is all A5 before, and a call that is refused must leave it so; where one does not, the run fails.
 */
#include <guide.h>
#include <stdio.h>
#include <stdlib.h>
#include <string.h>

enum { HEAD = 35, BYTES = 65536, ROOM = 4200, ROWS = 4000, UNITS = 32800, TEXT = 4096, TITLE_ROWS = 3084 };

typedef struct {
    uint32_t op;
    uint64_t a, b, c, d;
    size_t size;
    uint8_t bytes[BYTES];
} vector;

static vector v;

/* ---- the line of a vector */
static char line[1 << 20];
static size_t end;

static void say(const char *words) {
    end += sprintf(line + end, "%s", words);
}

static void number(uint64_t n) {
    end += sprintf(line + end, " %llu", (unsigned long long)n);
}

static void told(const char *words, uint64_t n) {
    say(words);
    number(n);
}

static void part(guide_part p) {
    number(p.start);
    number(p.length);
}

/* So many numbers of 32 bits, as they stand. */
static void numbers(const void *from, size_t n) {
    const uint32_t *p = from;
    for (size_t i = 0; i < n; i++)
        number(p[i]);
}

/* ---- what is told, and that a refusal tells nothing */
static union {
    uint8_t bytes[256];
    uint32_t one;
    guide_header header;
    guide_mgt_fields mgt;
    guide_table_fields table;
    guide_tvct_fields tvct;
    guide_channel_fields channel;
    guide_rrt_fields rrt;
    guide_dimension_fields dimension;
    guide_value_fields value;
    guide_eit_fields eit;
    guide_event_fields event;
    guide_ett_fields ett;
    guide_rating_told rating;
    guide_descriptor_told descriptor;
    guide_part part;
    guide_heading_told heading;
    guide_units_told units;
    guide_titles_told titles;
} out;

static void blank(void) {
    memset(&out, 0xA5, sizeof out);
}

/* Whether a call was done, which the caller then shows; a refusal is shown here. What lies behind the told numbers stays in any case. */
static int done(uint32_t refusal, size_t size) {
    for (size_t i = refusal ? 0 : size; i < sizeof out; i++)
        if (out.bytes[i] != 0xA5) {
            printf("FAILED: a call with the answer %u wrote byte %zu of what it tells\n", refusal, i);
            exit(1);
        }
    if (refusal)
        told(" refused", refusal);
    return !refusal;
}

#define DONE(field, call) (blank(), done(call, sizeof out.field))

/* ---- test_judging: no call judges one kind alone, but those of the tables do */
static uint32_t judged_as(uint32_t table_id) {
    switch (table_id) {
    case 0: return guide_judge(v.bytes, v.size, &out.header);
    case GUIDE_MGT: return guide_mgt(v.bytes, v.size, &out.mgt);
    case GUIDE_TVCT: return guide_tvct(v.bytes, v.size, &out.tvct);
    case GUIDE_RRT: return guide_rrt(v.bytes, v.size, &out.rrt);
    case GUIDE_EIT: return guide_eit(v.bytes, v.size, &out.eit);
    default: return guide_ett(v.bytes, v.size, &out.ett);
    }
}

static int judging(void) {
    if (v.op && v.op != GUIDE_MGT && v.op != GUIDE_TVCT && v.op != GUIDE_RRT && v.op != GUIDE_EIT && v.op != GUIDE_ETT)
        return 0;
    if (DONE(bytes, judged_as(v.op))) {
        say(" passes");
        if (DONE(header, guide_judge(v.bytes, v.size, &out.header)))
            numbers(&out.header, 6);
    }
    if (!strcmp(line + end - 2, " 9") && DONE(one, guide_fault(v.bytes, v.size, &out.one)))
        told(" at", out.one);
    return 1;
}

/* ---- test_reading */
static void event(uint32_t i) {
    if (!DONE(event, guide_eit_event(v.bytes, v.size, i, &out.event)))
        return;
    numbers(&out.event, 4);
    say(out.event.sort == GUIDE_NO_TITLE ? " none" : out.event.sort == GUIDE_NO_STRINGS ? " empty" : " text");
    if (out.event.sort == GUIDE_TEXT)
        part(out.event.title);
    else if (out.event.title.start != GUIDE_NO_VALUE || out.event.title.length != GUIDE_NO_VALUE)
        say(" that stands somewhere");
    part(out.event.descriptors);
}

static void rating(uint32_t refusal) {
    static const char *const words[] = {"", " no advisory", " region absent", " dimension absent", " value"};
    if (!done(refusal, sizeof out.rating))
        return;
    say(words[out.rating.answer]);
    if (out.rating.answer == GUIDE_VALUE)
        number(out.rating.value);
    else if (out.rating.value != GUIDE_NO_VALUE)
        say(" with a value");
}

/* All entries of a table, in a list that is all 7 before. */
static void rows(void) {
    static union {
        uint32_t numbers[ROWS];
        guide_table_fields table;
        guide_channel_fields channel;
        guide_dimension_fields dimension;
        guide_value_row value;
        guide_event_row event;
    } list;
    for (size_t i = 0; i < ROWS; i++)
        list.numbers[i] = 7;
    blank();
    uint32_t refusal = v.op == 0x03 ? guide_eit_events(v.bytes, v.size, &list.event, v.a, &out.one)
                     : v.op == 0x23 ? guide_mgt_tables(v.bytes, v.size, &list.table, v.a, &out.one)
                     : v.op == 0x33 ? guide_tvct_channels(v.bytes, v.size, &list.channel, v.a, &out.one)
                     : v.op == 0x44 ? guide_rrt_dimensions(v.bytes, v.size, &list.dimension, v.a, &out.one)
                                    : guide_rrt_values(v.bytes, v.size, &list.value, v.a, &out.one);
    if (done(refusal, sizeof out.one))
        told(" rows", out.one);
    say(":");
    numbers(list.numbers, v.a);
    for (size_t i = v.a; i < ROWS; i++)
        if (list.numbers[i] != 7)
            told(" behind the list", i);
}

static void descriptor(uint32_t refusal) {
    if (done(refusal, sizeof out.descriptor))
        numbers(&out.descriptor, 3);
}

static void advisory(uint32_t refusal) {
    if (done(refusal, sizeof out.part))
        part(out.part);
}

static int reading(void) {
    const uint8_t *s = v.bytes;
    size_t n = v.size;
    uint32_t a = v.a, b = v.b, c = v.c;
    if (v.op >= 0x50 || (v.a | v.b | v.c) >> 32)
        return 0;
    blank();
    switch (v.op) {
    case 0x01: if (DONE(eit, guide_eit(s, n, &out.eit))) numbers(&out.eit, 2); break;
    case 0x02: event(a); break;
    case 0x04: rating(guide_rating(s, n, a, b, c, &out.rating)); break;
    case 0x05: descriptor(guide_descriptor(s, n, a, b, &out.descriptor)); break;
    case 0x06: advisory(guide_advisory(s, n, a, b, &out.part)); break;
    case 0x07: rating(guide_list_rating(s, n, a, b, &out.rating)); break;
    case 0x08: descriptor(guide_list_descriptor(s, n, a, &out.descriptor)); break;
    case 0x09: advisory(guide_list_advisory(s, n, a, &out.part)); break;
    case 0x11: if (DONE(ett, guide_ett(s, n, &out.ett))) numbers(&out.ett, 4); break;
    case 0x21: if (DONE(mgt, guide_mgt(s, n, &out.mgt))) numbers(&out.mgt, 3); break;
    case 0x22: if (DONE(table, guide_mgt_table(s, n, a, &out.table))) numbers(&out.table, 6); break;
    case 0x31: if (DONE(tvct, guide_tvct(s, n, &out.tvct))) numbers(&out.tvct, 4); break;
    case 0x32: if (DONE(channel, guide_tvct_channel(s, n, a, &out.channel))) numbers(&out.channel, 21); break;
    case 0x41: if (DONE(rrt, guide_rrt(s, n, &out.rrt))) numbers(&out.rrt, 7); break;
    case 0x42: if (DONE(dimension, guide_rrt_dimension(s, n, a, &out.dimension))) numbers(&out.dimension, 4); break;
    case 0x43: if (DONE(value, guide_rrt_value(s, n, a, b, &out.value))) numbers(&out.value, 4); break;
    default: rows();
    }
    return 1;
}

/* ---- test_text */
static uint64_t digest_of(const void *list, size_t n, size_t width) {
    uint64_t sum = 1, sums = 0;
    for (size_t i = 0; i < n; i++) {
        sum += width == 1 ? ((const uint8_t *)list)[i] : width == 2 ? ((const uint16_t *)list)[i] : ((const uint32_t *)list)[i];
        sums += sum;
    }
    return sums % 65521 * 65536 + sum % 65521;
}

static void titles(void) {
    static union {
        uint32_t numbers[TITLE_ROWS];
        guide_titled_event event;
    } list;
    static uint16_t units[UNITS];
    for (size_t i = 0; i < TITLE_ROWS; i++)
        list.numbers[i] = 7;
    memset(units, 0xFF, sizeof units);
    if (DONE(titles, guide_titles(v.bytes, v.size, &list.event, v.a, units, v.b, &out.titles))) {
        told(" events", out.titles.events);
        told(" units", out.titles.units);
    }
    told(" rows", digest_of(list.numbers, TITLE_ROWS, 4));
    told(" text", digest_of(units, UNITS, 2));
}

static size_t amount(const char *words, uint32_t refusal) {
    say(words);
    if (!done(refusal, sizeof out.units))
        return 0;
    number(out.units.units);
    if (out.units.replaced)
        told(" replaced", out.units.replaced);
    return out.units.units;
}

static void heading(uint32_t refusal) {
    say(" language");
    if (done(refusal, sizeof out.heading)) {
        number(out.heading.language);
        told(" segments", out.heading.segments);
    }
}

static void shown(const uint16_t *units, size_t n) {
    size_t changed = 0;
    for (size_t i = n; i < TEXT; i++)
        changed += units[i] != 65535;
    told(" changed", changed);
    say(":");
    for (size_t i = 0; i < n; i++)
        number(units[i]);
}

/* The four answers about a text: of a field alone where `which` is NULL. */
static void text_of(const uint8_t *s, size_t n, const guide_which *which) {
    static uint16_t units[TEXT];
    memset(units, 0xFF, sizeof units);
    uint32_t k = v.c;
    say(" strings");
    blank();
    if (done(which ? guide_strings(s, n, which, &out.one) : guide_field_strings(s, n, &out.one), sizeof out.one))
        number(out.one);
    blank();
    heading(which ? guide_heading(s, n, which, &out.heading) : guide_field_heading(s, n, k, &out.heading));
    blank();
    amount(" units", which ? guide_units(s, n, which, &out.units) : guide_field_units(s, n, k, &out.units));
    blank();
    shown(units, amount(" text", which ? guide_text(s, n, which, units, v.d, &out.units) : guide_field_text(s, n, k, units, v.d, &out.units)));
}

static int text(void) {
    if (v.op < 3 || v.c >> 32 || (v.op != 3 && v.op != 23 && (v.a | v.b) >> 32))
        return 0;
    if (v.op == 23) {
        titles();
    } else if (v.op == 3) {
        /* as a part of more bytes a field is read by the sources alone: the line ends before that */
        size_t to = v.b < v.size ? v.b : v.size, from = v.a < to ? v.a : to;
        text_of(v.bytes + from, to - from, NULL);
    } else {
        const guide_which which = {v.op - 15, v.a, v.b, v.c};
        text_of(v.bytes, v.size, &which);
    }
    return 1;
}

/* ---- test_writing */
static uint32_t long_at(const uint8_t *s) {
    return (uint32_t)s[0] << 24 | (uint32_t)s[1] << 16 | (uint32_t)s[2] << 8 | s[3];
}

static void written(uint32_t refusal, const uint8_t *buffer, size_t room, int every_byte) {
    if (done(refusal, sizeof out.one))
        told(" written", out.one);
    say(":");
    if (every_byte)
        for (size_t i = 0; i < room; i++)
            number(buffer[i]);
    else
        number(digest_of(buffer, room, 1));
}

/* There and back: what was written is judged, read, and written from what was read. */
static void again(const uint8_t *s, size_t n) {
    static guide_event_row list[GUIDE_MOST_EVENTS];
    static uint8_t buffer[ROOM];
    guide_header h;
    guide_ett_fields ett;
    uint32_t count;
    memset(buffer, 0xA5, ROOM);
    say(" again");
    if (guide_judge(s, n, &h)) {
        say(" which is refused");
        return;
    }
    guide_given given = {h.extension, h.version, h.current, h.number, h.last, 0};
    blank();
    if (h.table_id == GUIDE_EIT && !guide_eit_events(s, n, list, GUIDE_NUMBERS(list), &count)) {
        given.events = count;
        written(guide_write_eit(&given, list, 8 * (size_t)count, s, n, buffer, ROOM, &out.one), buffer, ROOM, 0);
    } else if (h.table_id == GUIDE_ETT && !guide_ett(s, n, &ett)) {
        given.events = ett.etm_id;
        written(guide_write_ett(&given, s + ett.text.start, ett.text.length, buffer, ROOM, &out.one), buffer, ROOM, 0);
    }
}

static int writing(void) {
    static uint8_t buffer[ROOM];
    static union {
        uint32_t numbers[2048];
        guide_event_row row;
    } list;
    if ((v.a | v.b) >> 32 || v.b > 2048 || v.c > ROOM || v.size < 20)
        return 0;
    const uint8_t *s = v.bytes + 20;
    size_t n = v.size - 20, rows = v.op == 2 ? 0 : 4 * v.b;
    const guide_given given = {long_at(v.bytes), long_at(v.bytes + 4), long_at(v.bytes + 8), long_at(v.bytes + 12), long_at(v.bytes + 16), v.a};
    memset(buffer, 0xA5, ROOM);
    for (size_t i = 0; i < rows / 4; i++)
        list.numbers[i] = long_at(s + 4 * i);
    blank();
    uint32_t refusal = v.op == 2 ? guide_write_ett(&given, s, n, buffer, v.c, &out.one)
                                 : guide_write_eit(&given, &list.row, v.b, s + rows, n - rows, buffer, v.c, &out.one);
    written(refusal, buffer, v.c, v.op == 3);
    if (!refusal)
        again(buffer, out.one);
    return 1;
}

/* ---- */
static uint64_t huge_at(const uint8_t *s) {
    return (uint64_t)long_at(s) << 32 | long_at(s + 4);
}

static int next(void) {
    uint8_t head[HEAD];
    if (fread(head, 1, HEAD, stdin) != HEAD)
        return 0;
    v.op = head[0];
    v.a = huge_at(head + 1), v.b = huge_at(head + 9), v.c = huge_at(head + 17), v.d = huge_at(head + 25);
    v.size = head[33] << 8 | head[34];
    return fread(v.bytes, 1, v.size, stdin) == v.size;
}

int main(int argc, char **argv) {
    const char *name = argc > 1 ? argv[1] : "";
    int (*answer)(void) = !strcmp(name, "judging") ? judging : !strcmp(name, "reading") ? reading : !strcmp(name, "text") ? text : writing;
    for (unsigned long n = 0; next(); n++) {
        end = 0;
        line[0] = 0;
        if (answer())
            printf("%lu%s\n", n, line);
    }
    return 0;
}
