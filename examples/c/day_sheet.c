/* A day sheet of a capture: day_sheet FILE. Collects the guide and prints the programmes of each channel, with start, length, title and
 * ratings, and says "not yet heard" of what is missing. The capture is a row of records as the lister reads them: the mark A5 5A, the PID in
 * two bytes, and the section. Nothing is known beforehand but the PID of the first tables: the EITs' PID comes from the MGT, the
 * transport stream from the first channel table, the sources from its channels, the region from the first RRT.
 */
#include <guide.h>
#include <stdio.h>
#include <stdlib.h>

enum { BASE_PID = 0x1FFB, EIT_0 = 0x0100, WATCHES = 16, PLACES = 64, EIT_QUOTA = 4, CHANNELS = 12 };

/* ---- the shelf: memory of zeros is an empty one */
static guide_watch watches[WATCHES];
static guide_place places[PLACES];
static uint8_t area[PLACES * GUIDE_LONGEST];
static const guide_shelf shelf = {watches, WATCHES, places, PLACES, area, sizeof area};

/* A table that is watched, once its key is known. */
typedef struct {
    int open;
    uint32_t pid, table_id, extension;
} table;

static table mgt = {0, BASE_PID, GUIDE_MGT, 0}, tvct = {0, BASE_PID, GUIDE_TVCT, 0}, rrt = {0, BASE_PID, GUIDE_RRT, 0}, eit[CHANNELS];

static void watch(table *t, uint32_t extension, uint32_t quota) {
    if (t->open)
        return;
    t->extension = extension;
    uint32_t refusal = guide_open(&shelf, t->pid, t->table_id, extension, quota);
    t->open = refusal == GUIDE_DONE || refusal == GUIDE_ALREADY_WATCHED; /* two channels may have one source */
}

/* How many sections the whole table has; 0 where it is not complete, which no table that is complete has. */
static uint32_t complete(const table *t) {
    guide_reply reply;
    if (!t->open || guide_status(&shelf, t->pid, t->table_id, t->extension, &reply) || reply.code != GUIDE_COMPLETE)
        return 0;
    return reply.first;
}

/* A section of a table that is complete, where it is kept. */
typedef struct {
    const uint8_t *bytes;
    size_t n;
} kept;

static kept section_of(const table *t, uint32_t number) {
    guide_reply reply;
    if (guide_fetch(&shelf, t->pid, t->table_id, t->extension, number, &reply))
        return (kept){NULL, 0};
    return (kept){area + reply.first, reply.second};
}

/* ---- the channels, from all sections of the channel table */
static guide_channel_fields channel[CHANNELS];
static uint32_t channels;

static void learn_channels(void) {
    static guide_channel_fields row[GUIDE_MOST_CHANNELS];
    uint32_t sections = complete(&tvct), count;
    channels = 0;
    for (uint32_t number = 0; number < sections; number++) {
        kept s = section_of(&tvct, number);
        if (guide_tvct_channels(s.bytes, s.n, row, GUIDE_NUMBERS(row), &count))
            continue;
        for (uint32_t i = 0; i < count && channels < CHANNELS; i++)
            channel[channels++] = row[i];
    }
}

/* ---- what a section teaches before it is delivered */
static void learn(uint32_t pid, const uint8_t *section, size_t n) {
    guide_header header;
    if (pid != BASE_PID || guide_judge(section, n, &header) || !header.current)
        return;
    if (header.table_id == GUIDE_MGT)
        watch(&mgt, header.extension, 1);
    if (header.table_id == GUIDE_TVCT)
        watch(&tvct, header.extension, 4);
    if (header.table_id == GUIDE_RRT)
        watch(&rrt, header.extension, 1);
}

static void watch_programmes(void) {
    static guide_table_fields row[GUIDE_MOST_TABLES];
    uint32_t count;
    if (!complete(&mgt) || !complete(&tvct))
        return;
    kept s = section_of(&mgt, 0);
    if (guide_mgt_tables(s.bytes, s.n, row, GUIDE_NUMBERS(row), &count))
        return;
    learn_channels();
    for (uint32_t i = 0; i < count; i++)
        for (uint32_t c = 0; c < channels && row[i].table_type == EIT_0; c++) {
            eit[c].pid = row[i].pid;
            eit[c].table_id = GUIDE_EIT;
            watch(&eit[c], channel[c].source_id, EIT_QUOTA);
        }
}

/* ---- printing */
static void put_unit(uint32_t unit) {
    if (unit < 0x80)
        putchar(unit);
    else if (unit < 0x800)
        printf("%c%c", 0xC0 | unit >> 6, 0x80 | (unit & 0x3F));
    else
        printf("%c%c%c", 0xE0 | unit >> 12, 0x80 | (unit >> 6 & 0x3F), 0x80 | (unit & 0x3F));
}

static void put_title(const guide_titled_event *e, const uint16_t *units) {
    switch (e->sort) {
    case GUIDE_TEXT:
        putchar('"');
        for (uint32_t i = 0; i < e->units; i++)
            put_unit(units[e->first_unit + i]);
        putchar('"');
        break;
    case GUIDE_NO_TITLE:
        printf("no title");
        break;
    case GUIDE_NO_STRINGS:
        printf("a title without text");
        break;
    default:
        printf("a title that is not readable (%u)", e->sort);
    }
}

/* The first string of a text of the RRT, or the number that stands for it. */
static void put_text(kept region, uint32_t text, uint32_t i, uint32_t j, uint32_t number) {
    static uint16_t units[GUIDE_LONGEST];
    const guide_which which = {text, i, j, 0};
    guide_units_told told;
    if (guide_text(region.bytes, region.n, &which, units, GUIDE_LONGEST, &told)) {
        printf("%u", number);
        return;
    }
    for (uint32_t k = 0; k < told.units; k++)
        put_unit(units[k]);
}

/* Each dimension that the programme is rated in, by the words of the region. */
static void put_ratings(const uint8_t *list, size_t n) {
    kept region = complete(&rrt) ? section_of(&rrt, 0) : (kept){NULL, 0};
    guide_rrt_fields fields;
    guide_rating_told told;
    uint32_t rated = 0;
    if (guide_rrt(region.bytes, region.n, &fields)) {
        printf(", rating not yet heard");
        return;
    }
    for (uint32_t d = 0; d < fields.dimensions; d++) {
        if (guide_list_rating(list, n, fields.region, d, &told) || told.answer != GUIDE_VALUE)
            continue;
        printf(", ");
        put_text(region, GUIDE_DIMENSION_NAME, d, 0, d);
        printf(": ");
        put_text(region, GUIDE_SHORT_TEXT, d, told.value, told.value);
        rated++;
    }
    if (!rated)
        printf(", not rated");
}

static void put_programmes(const table *t) {
    static guide_titled_event event[GUIDE_MOST_EVENTS];
    static uint16_t units[8 * GUIDE_LONGEST];
    uint32_t sections = complete(t), programmes = 0;
    guide_titles_told told;
    for (uint32_t number = 0; number < sections; number++) {
        kept s = section_of(t, number);
        if (guide_titles(s.bytes, s.n, event, GUIDE_NUMBERS(event), units, 8 * GUIDE_LONGEST, &told))
            continue;
        programmes += told.events;
        for (uint32_t i = 0; i < told.events; i++) {
            printf("  %u for %u s: ", event[i].start_time, event[i].length_in_seconds);
            put_title(&event[i], units);
            put_ratings(s.bytes + event[i].descriptors.start, event[i].descriptors.length);
            putchar('\n');
        }
    }
    if (!sections)
        printf("  not yet heard\n");
    else if (!programmes)
        printf("  no programmes\n");
}

static void put_sheet(void) {
    if (!complete(&tvct))
        printf("the channels are not yet heard\n");
    for (uint32_t c = 0; c < channels; c++) {
        printf("%u.%u ", channel[c].major, channel[c].minor);
        for (int i = 0; i < 7 && channel[c].name[i]; i++)
            put_unit(channel[c].name[i]);
        putchar('\n');
        put_programmes(&eit[c]);
    }
}

/* ---- the capture: stations repeat their tables, so it is gone through until a round brings nothing new */
static void deliver_all(const uint8_t *capture, size_t size) {
    size_t at = 0, n;
    for (; at + 7 <= size && capture[at] == 0xA5 && capture[at + 1] == 0x5A; at += 4 + n) {
        uint32_t pid = capture[at + 2] << 8 | capture[at + 3];
        n = 3 + ((capture[at + 5] & 0x0F) << 8 | capture[at + 6]);
        if (size - at - 4 < n)
            return;
        learn(pid, capture + at + 4, n);
        guide_deliver(&shelf, pid, capture + at + 4, n);
    }
}

static uint8_t *read_file(const char *name, size_t *size) {
    FILE *f = fopen(name, "rb");
    uint8_t *bytes = NULL;
    long n;
    if (f && !fseek(f, 0, SEEK_END) && (n = ftell(f)) >= 0 && !fseek(f, 0, SEEK_SET) && (bytes = malloc(n + 1)))
        *size = fread(bytes, 1, n, f);
    if (!bytes)
        perror(name);
    if (f)
        fclose(f);
    return bytes;
}

int main(int argc, char **argv) {
    size_t size = 0;
    uint8_t *capture = argc == 2 ? read_file(argv[1], &size) : NULL;
    if (!capture) {
        fprintf(stderr, "usage: day_sheet FILE\n");
        return 1;
    }
    deliver_all(capture, size);
    watch_programmes();
    deliver_all(capture, size);
    put_sheet();
    free(capture);
    return 0;
}
