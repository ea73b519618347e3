/* Every call of guide.h over memory between guard pages, with bytes and choices that come from whoever includes this: guard.c takes them by chance, fuzz.c from
 * what a fuzzer hands it. Every memory that is lent begins or ends at a page that must not be touched; a call that is refused must leave what it
 * was lent as it stood. Nothing is compared with expected answers here.
 */
#define _GNU_SOURCE
#include <guide.h>
#include <stdio.h>
#include <stdlib.h>
#include <string.h>
#include <sys/mman.h>
#include <unistd.h>

enum { MOST = 8192, ROWS = 2048 };

/* ---- what the includer has: a choice below a number, and a section that may be damaged */
static uint32_t any(uint32_t below);
static size_t damaged(uint8_t *section);

/* ---- memory with a guard before it and behind it; n bytes of it that touch one of them */
typedef struct {
    uint8_t *first;
    size_t size;
} room;

static room guarded(size_t size) {
    size_t page = sysconf(_SC_PAGESIZE), whole = (size + page - 1) / page * page;
    uint8_t *p = mmap(NULL, whole + 2 * page, PROT_NONE, MAP_PRIVATE | MAP_ANONYMOUS, -1, 0);
    if (p == MAP_FAILED || mprotect(p + page, whole, PROT_READ | PROT_WRITE)) {
        perror("mmap");
        exit(1);
    }
    return (room){p + page, whole};
}

static void *lent(room r, size_t n) {
    return any(2) ? r.first : r.first + r.size - n;
}

/* ---- sections */
static void seal(uint8_t *s, size_t n) {
    uint32_t r = 0xFFFFFFFF;
    if (n < 7)
        return;
    s[1] = (s[1] & 0xF0) | (n - 3) >> 8;
    s[2] = n - 3;
    for (size_t i = 0; i < n - 4; i++) {
        r ^= (uint32_t)s[i] << 24;
        for (int k = 0; k < 8; k++)
            r = r << 1 ^ (r >> 31 ? 0x04C11DB7 : 0);
    }
    for (int k = 0; k < 4; k++)
        s[n - 4 + k] = r >> (24 - 8 * k);
}

/* ---- what is lent, and how what is lent to be written stood */
static room section_room, rows_room, units_room, told_room, out_room, watches_room, places_room, area_room;
static uint8_t pattern[1 << 17];
static unsigned long calls, done;

static int kept(const void *p, size_t n) {
    return !memcmp(p, pattern, n);
}

static void count(uint32_t refusal, const char *call, int untouched) {
    calls++;
    done += !refusal;
    if (refusal > 24 || (refusal && !untouched)) {
        printf("FAILED %s: %u, and what was lent is changed\n", call, refusal);
        exit(1);
    }
}

/* A call whose result is one struct. */
#define ONE(call, type, ...)                                   \
    do {                                                       \
        type *told = lent(told_room, sizeof(type));            \
        memcpy(told, pattern, sizeof(type));                   \
        uint32_t refusal = call(__VA_ARGS__, told);            \
        count(refusal, #call, kept(told, sizeof(type)));       \
    } while (0)

/* A call whose result is a list of rows and their number. */
#define ALL(call, type, s, n)                                                                  \
    do {                                                                                       \
        size_t numbers = any(3) ? any(64) : ROWS;                                              \
        type *rows = lent(rows_room, 4 * numbers);                                             \
        uint32_t *told = lent(told_room, 4);                                                   \
        memcpy(rows, pattern, 4 * numbers);                                                    \
        memcpy(told, pattern, 4);                                                              \
        uint32_t refusal = call(s, n, rows, numbers, told);                                    \
        count(refusal, #call, kept(rows, 4 * numbers) && kept(told, 4));                       \
    } while (0)

/* A call whose result is units and a struct. */
#define TEXT(call, ...)                                                                        \
    do {                                                                                       \
        size_t space = any(3) ? any(64) : MOST;                                                \
        uint16_t *units = lent(units_room, 2 * space);                                         \
        guide_units_told *told = lent(told_room, sizeof *told);                                \
        memcpy(units, pattern, 2 * space);                                                     \
        memcpy(told, pattern, sizeof *told);                                                   \
        uint32_t refusal = call(__VA_ARGS__, units, space, told);                              \
        count(refusal, #call, kept(units, 2 * space) && kept(told, sizeof *told));             \
    } while (0)

static uint32_t number(void) {
    return any(8) ? any(6) : any(2) ? any(0xFFFFFFFF) : 0xFFFFFFFF;
}

static void ask_titles(const uint8_t *s, size_t n) {
    size_t numbers = any(3) ? any(64) : ROWS, space = any(3) ? any(64) : 8 * GUIDE_LONGEST;
    guide_titled_event *rows = lent(rows_room, 4 * numbers);
    uint16_t *units = lent(units_room, 2 * space);
    guide_titles_told *told = lent(told_room, sizeof *told);
    memcpy(rows, pattern, 4 * numbers);
    memcpy(units, pattern, 2 * space);
    memcpy(told, pattern, sizeof *told);
    uint32_t refusal = guide_titles(s, n, rows, numbers, units, space, told);
    count(refusal, "guide_titles", kept(rows, 4 * numbers) && kept(units, 2 * space) && kept(told, sizeof *told));
}

static void ask(const uint8_t *s, size_t n) {
    const guide_which which = {any(9), number(), number(), number()};
    const uint32_t i = number(), j = number(), k = number(); /* one by one: C does not say which argument of a call comes first */
    ONE(guide_judge, guide_header, s, n);
    ONE(guide_fault, uint32_t, s, n);
    ONE(guide_mgt, guide_mgt_fields, s, n);
    ONE(guide_mgt_table, guide_table_fields, s, n, number());
    ONE(guide_tvct, guide_tvct_fields, s, n);
    ONE(guide_tvct_channel, guide_channel_fields, s, n, number());
    ONE(guide_rrt, guide_rrt_fields, s, n);
    ONE(guide_rrt_dimension, guide_dimension_fields, s, n, number());
    ONE(guide_rrt_value, guide_value_fields, s, n, i, j);
    ONE(guide_eit, guide_eit_fields, s, n);
    ONE(guide_eit_event, guide_event_fields, s, n, number());
    ONE(guide_ett, guide_ett_fields, s, n);
    ALL(guide_mgt_tables, guide_table_fields, s, n);
    ALL(guide_tvct_channels, guide_channel_fields, s, n);
    ALL(guide_rrt_dimensions, guide_dimension_fields, s, n);
    ALL(guide_rrt_values, guide_value_row, s, n);
    ALL(guide_eit_events, guide_event_row, s, n);
    ask_titles(s, n);
    ONE(guide_strings, uint32_t, s, n, &which);
    ONE(guide_heading, guide_heading_told, s, n, &which);
    ONE(guide_units, guide_units_told, s, n, &which);
    TEXT(guide_text, s, n, &which);
    ONE(guide_rating, guide_rating_told, s, n, i, j, k);
    ONE(guide_descriptor, guide_descriptor_told, s, n, i, j);
    ONE(guide_advisory, guide_part, s, n, i, j);
}

/* The bytes as a text field and as a descriptor list by themselves. */
static void ask_alone(const uint8_t *s, size_t n) {
    ONE(guide_field_strings, uint32_t, s, n);
    ONE(guide_field_heading, guide_heading_told, s, n, number());
    ONE(guide_field_units, guide_units_told, s, n, number());
    TEXT(guide_field_text, s, n, number());
    const uint32_t i = number(), j = number();
    ONE(guide_list_rating, guide_rating_told, s, n, i, j);
    ONE(guide_list_descriptor, guide_descriptor_told, s, n, number());
    ONE(guide_list_advisory, guide_part, s, n, number());
}

/* The events of a section, where they can be had, written again; else what happens to stand in the bytes. */
static void write_again(const uint8_t *s, size_t n) {
    guide_event_row *rows = (guide_event_row *)rows_room.first;
    uint32_t events = any(4), *length = lent(told_room, 4);
    size_t space = any(3) ? any(64) : GUIDE_LONGEST;
    uint8_t *out = lent(out_room, space);
    guide_header header = {0, number(), number(), number(), number(), number()};
    if (guide_judge(s, n, &header) || guide_eit_events(s, n, rows, ROWS, &events))
        for (uint32_t i = 0; i < 8 * events; i++)
            ((uint32_t *)rows)[i] = any(4) ? number() : any(n + 1);
    const guide_given eit = {header.extension, header.version, header.current, header.number, header.last, events};
    const guide_given ett = {header.extension, header.version, header.current, header.number, header.last, number()};
    memcpy(out, pattern, space);
    memcpy(length, pattern, 4);
    uint32_t refusal = guide_write_eit(&eit, rows, 8 * events, s, n, out, space, length);
    count(refusal, "guide_write_eit", kept(out, space) && kept(length, 4));
    memcpy(out, pattern, space);
    memcpy(length, pattern, 4);
    size_t from = any(n + 1);
    refusal = guide_write_ett(&ett, s + from, n - from, out, space, length);
    count(refusal, "guide_write_ett", kept(out, space) && kept(length, 4));
}

/* ---- the shelf */
enum { WATCHES = 16, PLACES = 64 };

/* By their fields: what stands between them in a record that was written means nothing. */
static int same_watches(const guide_watch *a, const guide_watch *b, size_t n) {
    for (size_t i = 0; i < n; i++)
        if (a[i].live != b[i].live || a[i].key.pid != b[i].key.pid || a[i].key.table_id != b[i].key.table_id ||
            a[i].key.extension != b[i].key.extension || a[i].quota != b[i].quota || a[i].heard != b[i].heard || a[i].version != b[i].version ||
            a[i].last != b[i].last)
            return 0;
    return 1;
}

static void shelf_calls(unsigned long wanted) {
    static guide_watch watches_before[WATCHES];
    static uint8_t places_before[PLACES * sizeof(guide_place)], section[GUIDE_LONGEST];
    static uint8_t area_before[PLACES * GUIDE_LONGEST];
    guide_shelf shelf = {0};
    for (unsigned long i = 0; i < wanted; i++) {
        if (i % 5000 == 0) {
            shelf.records = 1 + any(WATCHES);
            shelf.place_count = 1 + any(PLACES);
            shelf.area_size = shelf.place_count * GUIDE_LONGEST;
            shelf.watches = lent(watches_room, shelf.records * sizeof(guide_watch));
            shelf.places = lent(places_room, shelf.place_count * sizeof(guide_place));
            shelf.area = lent(area_room, shelf.area_size);
            memset(shelf.watches, 0, shelf.records * sizeof(guide_watch));
            memset(shelf.places, 0, shelf.place_count * sizeof(guide_place));
            memset(shelf.area, 0, shelf.area_size);
            memset(area_before, 0, sizeof area_before);
        }
        uint32_t pid = any(3), table_id = 0xC7 + any(6), extension = any(3) ? 7 + any(2) : any(65536), refusal;
        guide_reply reply, reply_before;
        memcpy(&reply, pattern, sizeof reply);
        reply_before = reply;
        memcpy(watches_before, shelf.watches, shelf.records * sizeof(guide_watch));
        memcpy(places_before, shelf.places, shelf.place_count * sizeof(guide_place));
        const char *call = "guide_deliver";
        switch (any(8)) {
        case 0:
            call = "guide_open";
            refusal = guide_open(&shelf, pid, table_id, extension, any(6));
            break;
        case 1:
            call = "guide_close";
            refusal = any(4) ? guide_status(&shelf, pid, table_id, extension, &reply) : guide_close(&shelf, pid, table_id, extension);
            break;
        case 2:
            call = "guide_fetch";
            refusal = guide_fetch(&shelf, pid, table_id, extension, any(4), &reply);
            break;
        default: {
            size_t n = damaged(section);
            if (n > 8 && any(4)) {
                section[3] = 0;
                section[4] = 7 + any(2);
                section[5] = 0xC1 | any(2) << 1;
                section[7] = any(3);
                section[6] = any(section[7] + 1);
                seal(section, n);
            }
            refusal = guide_deliver(&shelf, pid, section, n);
            if (!refusal)
                memcpy(area_before, shelf.area, shelf.area_size);
        }
        }
        count(refusal, call,
              same_watches(watches_before, shelf.watches, shelf.records) &&
                  !memcmp(places_before, shelf.places, shelf.place_count * sizeof(guide_place)) && !memcmp(&reply, &reply_before, sizeof reply) &&
                  (i % 64 || !memcmp(area_before, shelf.area, shelf.area_size)));
    }
}

static void prepare(void) {
    for (size_t i = 0; i < sizeof pattern; i++)
        pattern[i] = 0x5A ^ i;
    section_room = guarded(GUIDE_LONGEST + 64);
    rows_room = guarded(4 * ROWS);
    units_room = guarded(2 * 8 * GUIDE_LONGEST);
    told_room = guarded(256);
    out_room = guarded(GUIDE_LONGEST);
    watches_room = guarded(WATCHES * sizeof(guide_watch));
    places_room = guarded(PLACES * sizeof(guide_place));
    area_room = guarded(PLACES * GUIDE_LONGEST);
}
