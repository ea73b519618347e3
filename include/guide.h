/* guide.h: the ATSC programme guide (A/65 Revision A): sections judged and read, texts, ratings, sections written, and a shelf that collects
 * them.
 *
 * EVERY CALL answers a number of `enum guide_refusal`: GUIDE_DONE, or the one refusal that fits first in the order that the call names. A call that
 * is refused changes nothing of what it was lent. A call that is done writes what its comment says and nothing else. No call keeps a
 * pointer, allocates, or calls back; none needs more than it is given, so calls on different memory may run at the same time. None takes more than 6 KiB of
 * stack, whatever it is given, beside what memcpy and memset take (docs/SPEED.md says how much each takes).
 *
 * A BLANK IS NOT A NOUGHT. What is not there has a number of its own (GUIDE_NO_TITLE, GUIDE_NO_ADVISORY, GUIDE_NOTHING_HEARD, ..), and
 * the value that it does not have is GUIDE_NO_VALUE.
 *
 * WHAT IS ASKED OF YOU: each pointer is good for as many elements as the length beside it says, or for the one struct that it points to; where
 * the length is 0, it may be NULL. What is lent to be written overlaps nothing else that the call is lent: so a section that was fetched is
 * copied before it is delivered again. Nothing else is asked: every value of every argument has an answer.
 *
 *     #include <guide.h>
 *     #include <stdio.h>
 *
 *     void first_title(const uint8_t *section, size_t n) {
 *         guide_titled_event event[GUIDE_MOST_EVENTS];
 *         uint16_t units[4096];
 *         guide_titles_told told;
 *         uint32_t refusal = guide_titles(section, n, event, GUIDE_NUMBERS(event), units, 4096, &told);
 *         if (refusal)
 *             printf("refused by %u\n", refusal);
 *         else if (told.events && event[0].sort == GUIDE_TEXT)
 *             for (uint32_t i = 0; i < event[0].units; i++)
 *                 putchar(units[event[0].first_unit + i]);
 *     }
 */
#ifndef GUIDE_H
#define GUIDE_H

#include <stddef.h>
#include <stdint.h>

#ifdef __cplusplus
extern "C" {
#endif

/* ---- refusals */
enum guide_refusal {
    GUIDE_DONE = 0,
    GUIDE_TOO_SHORT = 1,         /* there are fewer than 3 bytes */
    GUIDE_OTHER_TABLE = 2,       /* table_id is none of the kinds, or not that of the kind which the call reads */
    GUIDE_INDICATOR = 3,         /* the syntax indicator or the private indicator is 0 */
    GUIDE_LENGTH_RANGE = 4,      /* section_length is outside its kind's range */
    GUIDE_BYTE_COUNT = 5,        /* the number of bytes is not section_length + 3 */
    GUIDE_CHECKSUM = 6,          /* the checksum's register does not end at 0 */
    GUIDE_PROTOCOL_VERSION = 7,  /* protocol_version is not 0 */
    GUIDE_SECTION_NUMBER = 8,    /* section_number is above last_section_number, or that is not 0 where it must be */
    GUIDE_BODY = 9,              /* the body: a length or count runs past its container, bytes are left over, an RRT count is 0 */
    GUIDE_NOT_A_READ_PAIR = 10,  /* compression and mode are not a pair that is read */
    GUIDE_BROKEN_TEXT = 11,      /* broken text */
    GUIDE_OUTPUT_SHORT = 12,     /* the output is too short */
    GUIDE_NO_SUCH_ENTRY = 13,    /* there is no string, event or other entry of that number */
    GUIDE_SHELF_BROKEN = 14,     /* the shelf's sizes or rules are broken */
    GUIDE_OUT_OF_RANGE = 15,     /* a PID above 8191, a watch's table_id of no kind, or a quota out of range */
    GUIDE_NOT_CURRENT = 16,      /* current_next_indicator is 0 */
    GUIDE_NOT_WATCHED = 17,      /* the key is not watched */
    GUIDE_ABOVE_QUOTA = 18,      /* last_section_number + 1 is above the quota */
    GUIDE_ALREADY_WATCHED = 19,  /* the key is watched already */
    GUIDE_NO_RECORD_LEFT = 20,   /* every watch record is taken */
    GUIDE_NO_PLACES_LEFT = 21,   /* the quotas would exceed the places */
    GUIDE_NOT_HELD = 22,         /* the key is watched, and this section is not held */
    GUIDE_FIELD_TOO_LARGE = 23,  /* a field is too large to write */
    GUIDE_SECTION_TOO_LONG = 24, /* the section would be longer than its kind or the buffer allows */
};

/* What stands where there is no value. */
#define GUIDE_NO_VALUE 0xffffffffu

/* How many numbers of 32 bits an array of structs has room for. */
#define GUIDE_NUMBERS(array) (sizeof(array) / 4)

/* The table_ids of the kinds. */
enum guide_kind { GUIDE_MGT = 0xC7, GUIDE_TVCT = 0xC8, GUIDE_RRT = 0xCA, GUIDE_EIT = 0xCB, GUIDE_ETT = 0xCC };

/* A section has at most so many bytes and entries. */
enum { GUIDE_LONGEST = 4096, GUIDE_MOST_TABLES = 370, GUIDE_MOST_CHANNELS = 255, GUIDE_MOST_DIMENSIONS = 255, GUIDE_MOST_VALUES = 512, GUIDE_MOST_EVENTS = 255 };

/* A part of a section: where it begins, and how many bytes it has. */
typedef struct {
    uint32_t start, length;
} guide_part;

/* ---- judging */
typedef struct {
    uint32_t table_id, extension, version, current, number, last;
} guide_header;

/* The header of a section of any kind. Refused by 1 to 9. */
uint32_t guide_judge(const uint8_t *section, size_t n, guide_header *header);

/* Where the body of a section fails: the offset of the field to blame, or GUIDE_NO_VALUE where the section is sound. Refused by 1 to 8. */
uint32_t guide_fault(const uint8_t *section, size_t n, uint32_t *offset);

/* ---- tables: each call reads one kind and is refused by 1 to 9; then by 13, where it asks for an entry, counted from 0 */
typedef struct {
    uint32_t tables;
    guide_part descriptors;
} guide_mgt_fields;

typedef struct {
    uint32_t table_type, pid, version, bytes;
    guide_part descriptors;
} guide_table_fields;

typedef struct {
    uint32_t tsid, channels;
    guide_part descriptors;
} guide_tvct_fields;

typedef struct {
    uint32_t name[7]; /* UTF-16, behind its end zeros */
    uint32_t major, minor, modulation, carrier, channel_tsid, program_number;
    uint32_t etm_location, access_controlled, hidden, six_bits, service_type, source_id;
    guide_part descriptors;
} guide_channel_fields;

typedef struct {
    uint32_t extension, region;
    guide_part name;
    uint32_t dimensions;
    guide_part descriptors;
} guide_rrt_fields;

typedef struct {
    guide_part name;
    uint32_t graduated_scale, values;
} guide_dimension_fields;

typedef struct {
    guide_part short_text, long_text;
} guide_value_fields;

typedef struct {
    uint32_t source, events;
} guide_eit_fields;

/* The sorts of a title. In the rows of guide_titles, a title whose text is refused has the refusal's number, 10 or 11, for its sort. */
enum guide_title_sort { GUIDE_NO_TITLE = 1, GUIDE_NO_STRINGS = 2, GUIDE_TEXT = 3 };

typedef struct {
    uint32_t event_id, start_time, etm_location, length_in_seconds; /* start_time: seconds since 1980-01-06 00:00 UTC, leap seconds too */
    uint32_t sort;                                                   /* of the title */
    guide_part title;                                                /* GUIDE_NO_VALUE twice where it is no text */
    guide_part descriptors;
} guide_event_fields;

typedef struct {
    uint32_t extension, etm_id;
    guide_part text;
} guide_ett_fields;

uint32_t guide_mgt(const uint8_t *section, size_t n, guide_mgt_fields *fields);
uint32_t guide_mgt_table(const uint8_t *section, size_t n, uint32_t i, guide_table_fields *fields);
uint32_t guide_tvct(const uint8_t *section, size_t n, guide_tvct_fields *fields);
uint32_t guide_tvct_channel(const uint8_t *section, size_t n, uint32_t i, guide_channel_fields *fields);
uint32_t guide_rrt(const uint8_t *section, size_t n, guide_rrt_fields *fields);
uint32_t guide_rrt_dimension(const uint8_t *section, size_t n, uint32_t i, guide_dimension_fields *fields);
uint32_t guide_rrt_value(const uint8_t *section, size_t n, uint32_t i, uint32_t j, guide_value_fields *fields);
uint32_t guide_eit(const uint8_t *section, size_t n, guide_eit_fields *fields);
uint32_t guide_eit_event(const uint8_t *section, size_t n, uint32_t i, guide_event_fields *fields);
uint32_t guide_ett(const uint8_t *section, size_t n, guide_ett_fields *fields);

/* ---- all entries of a table, judged once: from the beginning of `rows`, which has room for so many numbers of 32 bits. `count` is how many
 * rows there are. Refused by 1 to 9, then by 12 where the rows have no room. */
typedef struct {
    uint32_t dimension, value; /* their numbers, from 0 */
    guide_part short_text, long_text;
} guide_value_row;

typedef struct {
    uint32_t event_id, start_time, etm_location, length_in_seconds;
    guide_part title, descriptors;
} guide_event_row;

uint32_t guide_mgt_tables(const uint8_t *section, size_t n, guide_table_fields *rows, size_t numbers, uint32_t *count);
uint32_t guide_tvct_channels(const uint8_t *section, size_t n, guide_channel_fields *rows, size_t numbers, uint32_t *count);
uint32_t guide_rrt_dimensions(const uint8_t *section, size_t n, guide_dimension_fields *rows, size_t numbers, uint32_t *count);
uint32_t guide_rrt_values(const uint8_t *section, size_t n, guide_value_row *rows, size_t numbers, uint32_t *count);
uint32_t guide_eit_events(const uint8_t *section, size_t n, guide_event_row *rows, size_t numbers, uint32_t *count);

/* ---- all events of an EIT with the text of their titles, judged once and each title decoded once where `units` has room for 8 times the section's
 * bytes. The units of the titles' first strings, UTF-16, stand one after the other from the beginning of `units`. Refused by 1 to 9,
 * then by 12 where one of the lists is short. A title that is refused does not refuse the call: its sort is 10 or 11. */
typedef struct {
    uint32_t event_id, start_time, etm_location, length_in_seconds;
    guide_part title, descriptors;
    uint32_t sort;                        /* of the title: guide_title_sort, or 10 or 11 */
    uint32_t first_unit, units, replaced; /* where its units begin, how many they are, how many segments were replaced (none today) */
} guide_titled_event;

typedef struct {
    uint32_t events, units;
} guide_titles_told;

uint32_t guide_titles(const uint8_t *section, size_t n, guide_titled_event *rows, size_t numbers, uint16_t *units, size_t room, guide_titles_told *told);

/* ---- texts of a section. Refused by 13 for a text that is none of the seven, by 1 to 9, by 13 for the entry and for the string, then by 10 or 11; a
 * text by 12 at last. */
enum guide_text_kind {
    GUIDE_TITLE = 1,          /* of event i */
    GUIDE_ADVISORY_TEXT = 2,  /* of event i, for region j */
    GUIDE_EXTENDED_TEXT = 3,  /* of an ETT */
    GUIDE_REGION_NAME = 4,    /* of an RRT */
    GUIDE_DIMENSION_NAME = 5, /* of dimension i */
    GUIDE_SHORT_TEXT = 6,     /* of dimension i, value j */
    GUIDE_LONG_TEXT = 7,      /* of dimension i, value j */
};

typedef struct {
    uint32_t text, i, j, string; /* which text, of which entries, and which of its strings, from 0 */
} guide_which;

typedef struct {
    uint32_t language, segments; /* language: three bytes, the first letter in the highest */
} guide_heading_told;

typedef struct {
    uint32_t units, replaced; /* how many units, and how many segments were replaced (none today) */
} guide_units_told;

uint32_t guide_strings(const uint8_t *section, size_t n, const guide_which *which, uint32_t *count);
uint32_t guide_heading(const uint8_t *section, size_t n, const guide_which *which, guide_heading_told *told);
uint32_t guide_units(const uint8_t *section, size_t n, const guide_which *which, guide_units_told *told);
uint32_t guide_text(const uint8_t *section, size_t n, const guide_which *which, uint16_t *units, size_t room, guide_units_told *told);

/* The same of a text field by itself, as a guide_part of a section is one. Refused by 9, 13, then by 10 or 11; a text by 12 at last. */
uint32_t guide_field_strings(const uint8_t *field, size_t n, uint32_t *count);
uint32_t guide_field_heading(const uint8_t *field, size_t n, uint32_t string, guide_heading_told *told);
uint32_t guide_field_units(const uint8_t *field, size_t n, uint32_t string, guide_units_told *told);
uint32_t guide_field_text(const uint8_t *field, size_t n, uint32_t string, uint16_t *units, size_t room, guide_units_told *told);

/* ---- ratings and descriptors of event i, refused by 1 to 9, then by 13; and of a descriptor list by itself, refused by 9, then by 13 */
enum guide_rating_answer { GUIDE_NO_ADVISORY = 1, GUIDE_REGION_ABSENT = 2, GUIDE_DIMENSION_ABSENT = 3, GUIDE_VALUE = 4 };

typedef struct {
    uint32_t answer, value; /* value: 0 to 15, or GUIDE_NO_VALUE where the answer is not GUIDE_VALUE */
} guide_rating_told;

typedef struct {
    uint32_t tag;
    guide_part content;
} guide_descriptor_told;

uint32_t guide_rating(const uint8_t *section, size_t n, uint32_t i, uint32_t region, uint32_t dimension, guide_rating_told *told);
uint32_t guide_descriptor(const uint8_t *section, size_t n, uint32_t i, uint32_t k, guide_descriptor_told *told);
uint32_t guide_advisory(const uint8_t *section, size_t n, uint32_t i, uint32_t region, guide_part *text);
uint32_t guide_list_rating(const uint8_t *list, size_t n, uint32_t region, uint32_t dimension, guide_rating_told *told);
uint32_t guide_list_descriptor(const uint8_t *list, size_t n, uint32_t k, guide_descriptor_told *told);
uint32_t guide_list_advisory(const uint8_t *list, size_t n, uint32_t region, guide_part *text);

/* ---- writing. Refused by 23, 8, 9, 24. The section stands at the beginning of `out`, and `length` is its length. Reserved bits are ones. */
typedef struct {
    uint32_t extension, version, current, number, last;
    uint32_t events; /* of an EIT; of an ETT its ETM_id */
} guide_given;

/* The parts of the rows are parts of `bytes`. */
uint32_t guide_write_eit(const guide_given *given, const guide_event_row *rows, size_t numbers, const uint8_t *bytes, size_t n, uint8_t *out, size_t room, uint32_t *length);
uint32_t guide_write_ett(const guide_given *given, const uint8_t *text, size_t n, uint8_t *out, size_t room, uint32_t *length);

/* ---- the shelf: it collects the sections of tables until they are complete. It stands in memory that is lent to every call: watch
 * records, 1 to 16; a row for each place, 1 to 64; and the area, GUIDE_LONGEST bytes a place. All of it zeros is an empty shelf. Only the calls write it;
 * what no rule allows is refused by 14. */
typedef struct {
    uint8_t live; /* not 0 where the watch is open */
    struct {
        uint16_t pid;
        uint8_t table_id;
        uint16_t extension;
    } key;
    uint8_t quota;
    uint8_t heard, version, last; /* the edition, where heard is not 0 */
} guide_watch;                    /* what the compiler puts between the fields means nothing */

typedef struct {
    uint32_t used, watch, number, length; /* used: not 0 where a section of watch `watch` is kept here */
    uint32_t time;                        /* not read today */
} guide_place;

/* What is asked: a key, and a quota to open a watch, or the number of a section to fetch. A delivery asks with the PID alone. */
typedef struct {
    uint32_t pid, table_id, extension, amount;
} guide_question;

enum guide_reply_code { GUIDE_NOTHING_HEARD = 1, GUIDE_IN_PART = 2, GUIDE_COMPLETE = 3, GUIDE_FETCHED = 4 };

/* What is answered. GUIDE_NOTHING_HEARD: no values. GUIDE_IN_PART: `first` sections of `second` are held. GUIDE_COMPLETE: so many are held, twice.
 * GUIDE_FETCHED: the section stands in the area, from `first` on, with `second` bytes; it may be read until the shelf is next changed. */
typedef struct {
    uint32_t code, first, second;
} guide_reply;

/* All five calls have one shape: places, question and reply are lent as numbers of 32 bits, whose count stands beside them: five a place, four,
 * three. What a call does not use may be of length 0, but for the question and the reply. */
#define GUIDE_SHELF_CALL(name)                                                                                                         \
    uint32_t name(guide_watch *watches, size_t records, guide_place *places, size_t numbers, uint8_t *area, size_t size,              \
                  const uint8_t *section, size_t n, const guide_question *question, size_t asked, guide_reply *reply, size_t told)

GUIDE_SHELF_CALL(lent_open);    /* opens a watch. Refused by 14, 15, 19, 20, 21 */
GUIDE_SHELF_CALL(lent_close);   /* closes it and frees its places. Refused by 14, 17 */
GUIDE_SHELF_CALL(lent_status);  /* what is held: the reply. Refused by 14, 17 */
GUIDE_SHELF_CALL(lent_fetch);   /* where a section is held: the reply. Refused by 14, 17, 22 */
GUIDE_SHELF_CALL(lent_deliver); /* takes a section in. Refused by 14, 15, 1 to 9, 16, 17, 18 */

/* The same with the shelf's memory in one struct of pointers. */
typedef struct {
    guide_watch *watches;
    size_t records;
    guide_place *places;
    size_t place_count;
    uint8_t *area;
    size_t area_size;
} guide_shelf;

typedef GUIDE_SHELF_CALL((*guide_shelf_call));

static inline uint32_t guide_ask(guide_shelf_call call, const guide_shelf *shelf, guide_question question, const uint8_t *section, size_t n, guide_reply *reply) {
    guide_reply none;
    return call(shelf->watches, shelf->records, shelf->places, 5 * shelf->place_count, shelf->area, shelf->area_size, section, n, &question, 4,
                reply ? reply : &none, 3);
}

static inline uint32_t guide_open(const guide_shelf *shelf, uint32_t pid, uint32_t table_id, uint32_t extension, uint32_t quota) {
    const guide_question question = {pid, table_id, extension, quota};
    return guide_ask(lent_open, shelf, question, NULL, 0, NULL);
}

static inline uint32_t guide_close(const guide_shelf *shelf, uint32_t pid, uint32_t table_id, uint32_t extension) {
    const guide_question question = {pid, table_id, extension, 0};
    return guide_ask(lent_close, shelf, question, NULL, 0, NULL);
}

static inline uint32_t guide_status(const guide_shelf *shelf, uint32_t pid, uint32_t table_id, uint32_t extension, guide_reply *reply) {
    const guide_question question = {pid, table_id, extension, 0};
    return guide_ask(lent_status, shelf, question, NULL, 0, reply);
}

static inline uint32_t guide_fetch(const guide_shelf *shelf, uint32_t pid, uint32_t table_id, uint32_t extension, uint32_t number, guide_reply *reply) {
    const guide_question question = {pid, table_id, extension, number};
    return guide_ask(lent_fetch, shelf, question, NULL, 0, reply);
}

static inline uint32_t guide_deliver(const guide_shelf *shelf, uint32_t pid, const uint8_t *section, size_t n) {
    const guide_question question = {pid, 0, 0, 0};
    return guide_ask(lent_deliver, shelf, question, section, n, NULL);
}

#ifdef __cplusplus
}
#endif

#endif
