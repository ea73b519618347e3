// Memory that can be lent and that no rule allows, and memory that looks odd and is allowed: each case calls all five calls of the crate
// `lent` through its C symbols. The answers are by hand, of docs/SCOPE.md 5 and 6. A refused call must leave all that was lent as it stood.
#include "bare.h"
#include "lent_calls.h"

enum { RECORDS = 17, PLACES = 65, PLACE = 4096, SHELF = 14, RANGE = 15, NO_WATCH = 17, NOT_HELD = 22, JUNK = 0x5A };

typedef struct {
    guide_watch watch[RECORDS];
    uint32_t row[PLACES][ROW];
    uint32_t question[QUESTION + 1];
    uint32_t reply[REPLY + 1];
    size_t records, numbers, area, asked, told;
} Lent;

static Lent lent, before;
static uint8_t area[PLACES * PLACE];
static int failed;

// Two records and three places; the first watch is open for the EITs of source 7 on PID 0x1D00 and has nothing.
static void sound_shelf(void) {
    memset(&lent, 0, sizeof lent);
    lent.records = 2;
    lent.numbers = 3 * ROW;
    lent.area = 3 * PLACE;
    lent.asked = QUESTION;
    lent.told = REPLY;
    lent.watch[0] = (guide_watch){.live = 1, .key = {0x1D00, 0xCB, 7}, .quota = 2};
    const uint32_t question[QUESTION] = {0x1D00, 0xCB, 7, 0};
    memcpy(lent.question, question, sizeof question);
    memset(lent.reply, JUNK, sizeof lent.reply);
}

static uint32_t call(guide_shelf_call c) {
    static const uint8_t cut[] = {0xCB, 0xF0};
    return call_on(c, lent.watch, lent.records, lent.row[0], lent.numbers, area, lent.area, cut, sizeof cut, lent.question, lent.asked, lent.reply, lent.told);
}

static void expect(const char *name, const char *called, guide_shelf_call c, uint32_t refusal) {
    before = lent;
    uint32_t got = call(c);
    if (got == refusal && (!refusal || same(&lent, &before, sizeof lent)))
        return;
    say("FAILED ");
    say(name);
    say(called);
    say_number(got);
    say("\n");
    failed = 1;
}

// The five calls are refused by these; 1 is what a delivery of two bytes is refused by on a shelf that is sound, and 0 is done.
static void expect_all(const char *name, const uint32_t refusals[5]) {
    expect(name, ", status: ", lent_status, refusals[0]);
    expect(name, ", fetching: ", lent_fetch, refusals[1]);
    expect(name, ", delivering: ", lent_deliver, refusals[2]);
    expect(name, ", opening: ", lent_open, refusals[3]);
    expect(name, ", closing: ", lent_close, refusals[4]);
}

static void unruly(const char *name) {
    expect_all(name, (const uint32_t[]){SHELF, SHELF, SHELF, SHELF, SHELF});
}

static void sizes(void) {
    sound_shelf();
    lent.records = 17;
    lent.numbers = 64 * ROW;
    lent.area = 64 * PLACE;
    unruly("seventeen records");
    sound_shelf();
    lent.records = 0;
    unruly("no record");
    sound_shelf();
    lent.numbers = 65 * ROW;
    lent.area = 65 * PLACE;
    unruly("65 places");
    sound_shelf();
    lent.numbers = 0;
    unruly("no place");
    sound_shelf();
    lent.numbers = 3 * ROW + 1;
    unruly("rows that are not whole");
    sound_shelf();
    lent.area = 3 * PLACE - 1;
    unruly("an area that is too short");
    sound_shelf();
    lent.asked = QUESTION - 1;
    unruly("a question of three numbers");
    sound_shelf();
    lent.asked = QUESTION + 1;
    unruly("a question of five numbers");
    sound_shelf();
    lent.told = REPLY - 1;
    unruly("a reply of two numbers");
}

static void taken(unsigned place, uint32_t used, uint32_t watch, uint32_t number, uint32_t length) {
    const uint32_t row[ROW] = {used, watch, number, length, JUNK};
    memcpy(lent.row[place], row, sizeof row);
}

static void hears(guide_watch *w, unsigned last) {
    w->heard = 1;
    w->version = 3;
    w->last = last;
}

static void numbers(void) {
    sound_shelf();
    hears(&lent.watch[0], 1);
    taken(1, 1, 256, 0, 30);
    unruly("a watch's number of nine bits");
    sound_shelf();
    hears(&lent.watch[0], 1);
    taken(1, 1, 0, 256, 30);
    unruly("a section's number of nine bits");
    sound_shelf();
    hears(&lent.watch[0], 1);
    taken(1, 1, 0, 0, 65536 + 30);
    unruly("a length of seventeen bits");
    sound_shelf();
    taken(1, 1, 0, 0, 30);
    unruly("a section of a watch that has heard nothing");
    sound_shelf();
    lent.watch[1] = lent.watch[0];
    unruly("two open watches of one key");
    sound_shelf();
    lent.watch[0].key.pid = 0x2000;
    unruly("a PID of fourteen bits");
}

static void questions(void) {
    sound_shelf();
    lent.question[2] = 65536 + 7;
    lent.question[3] = 1;
    expect_all("an extension of seventeen bits", (const uint32_t[]){NO_WATCH, NO_WATCH, 1, RANGE, NO_WATCH});
    sound_shelf();
    lent.question[0] = 0x80000000;
    lent.question[3] = 1;
    expect_all("a PID of 32 bits", (const uint32_t[]){NO_WATCH, NO_WATCH, RANGE, RANGE, NO_WATCH});
}

// Flags are set where they are not 0; closed records, free rows and the time of every row hold what they like, and keep it.
static void allowed(void) {
    sound_shelf();
    memset(&lent.watch[1], JUNK, sizeof *lent.watch);
    lent.watch[1].live = 0;
    for (unsigned p = 0; p < 3; p++)
        taken(p, 0, JUNK, 0xFFFFFFFF, JUNK);
    lent.watch[0].live = JUNK;
    expect("junk where nothing is kept", ", status: ", lent_status, 0);
    if (!same(&lent.watch, &before.watch, sizeof lent.watch) || !same(lent.row, before.row, sizeof lent.row) || lent.reply[0] != 1 ||
        lent.reply[1] != GUIDE_NO_VALUE || lent.reply[2] != GUIDE_NO_VALUE || lent.reply[3] != before.reply[3]) {
        say("FAILED junk: changed, or heard\n");
        failed = 1;
    }
    hears(&lent.watch[0], 1);
    lent.watch[0].heard = JUNK;
    taken(2, JUNK, 0, 1, 30);
    expect("a flag that is not 1", ", fetching what is not held: ", lent_fetch, NOT_HELD);
    lent.question[3] = 1;
    expect("a flag that is not 1", ", fetching: ", lent_fetch, 0);
    if (lent.reply[0] != 4 || lent.reply[1] != 2 * PLACE || lent.reply[2] != 30) {
        say("FAILED fetching: another part\n");
        failed = 1;
    }
    expect("a flag that is not 1", ", closing: ", lent_close, 0);
    const uint32_t freed[ROW] = {0, 0, 0, 0, 0};
    if (!same(&lent.watch[1], &before.watch[1], sizeof *lent.watch) || !same(lent.row, before.row, 2 * sizeof *lent.row) ||
        !same(lent.row[2], freed, sizeof freed) || lent.watch[0].live) {
        say("FAILED closing: another record or row than its own\n");
        failed = 1;
    }
}

// Memory of zeros alone is an empty shelf.
static void zeros(void) {
    sound_shelf();
    memset(lent.watch, 0, sizeof lent.watch);
    lent.question[3] = 1;
    expect("zeros", ", status: ", lent_status, NO_WATCH);
    expect("zeros", ", opening: ", lent_open, 0);
    expect("zeros", ", status of what is open: ", lent_status, 0);
}

int main(void) {
    sizes();
    numbers();
    questions();
    allowed();
    zeros();
    return failed;
}
