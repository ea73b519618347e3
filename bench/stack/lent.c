// The five calls on lent memory, each on the last watch of a full shelf.
#include "lent.h"

#include "delivering.h"

static guide_shelf_call made;
static uint32_t question[QUESTION];

static void call(void) {
    refusal = call_on(made, held.watch, RECORDS, held.place[0], PLACES * ROW, area, sizeof area, delivered.bytes, delivered.n, question, QUESTION,
                      held.reply, REPLY);
}

// A call on the last watch, and the amount that is asked for.
static void make(guide_shelf_call c, uint32_t amount) {
    made = c;
    question[0] = LAST;
    question[1] = 0xCB;
    question[2] = 7;
    question[3] = amount;
}

static void reply(uint32_t code, uint32_t x, uint32_t y) {
    expected.reply[0] = code;
    expected.reply[1] = x;
    expected.reply[2] = y;
}

static void paint(const char *name, const char *about) {
    long taken = stack_of(call);
    painted(name, about, taken, !refusal && as_expected());
    tell(name);
}

static void open_last(void) {
    fill();
    free_from(&held, 0);
    held.watch[LAST] = (guide_watch){0};
    expected = held;
    expected.watch[LAST] = fresh_watch(LAST, 0xCB);
    make(lent_open, QUOTA);
    paint("lent_open", "the last record");
}

static void close_last(void) {
    fill();
    expected = held;
    free_from(&expected, 0);
    expected.watch[LAST] = (guide_watch){0};
    make(lent_close, 0);
    paint("lent_close", "the last record");
}

static void ask_last(void) {
    fill();
    expected = held;
    reply(GUIDE_COMPLETE, QUOTA, QUOTA);
    make(lent_status, 0);
    paint("lent_status", "the last record");
}

static void fetch_last(void) {
    fill();
    expected = held;
    reply(GUIDE_FETCHED, (PLACES - 1) * PLACE, PLACE);
    make(lent_fetch, QUOTA - 1);
    paint("lent_fetch", "the last place");
}

int main(void) {
    open_last();
    close_last();
    ask_last();
    fetch_last();
    make(lent_deliver, 0);
    deliver_all("lent_deliver", call);
    return failed;
}
