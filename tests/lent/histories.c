// Runs the histories of tests/shelf_runs.py through the five calls on lent memory as C has them, over a list of watch records: reads the
// vectors of crates/test_lent/stdin and writes the lines of crates/test_lent/stdout. tests/README.md describes both. Behind what is lent
// stand guards; a refused call must leave every byte of what was lent as it stood, what fills a record up too.
#include "bare.h"
#include "lent_calls.h"

enum { RECORDS = 16, PLACES = 64, PLACE = 4096, HEAD = 35, LONGEST = 65535, GUARD = 0xA5 };

typedef struct {
    guide_watch watch[RECORDS + 1];
    uint32_t row[PLACES + 1][ROW];
    uint32_t reply[REPLY + 1];
} Lent;

static Lent lent, before;
static uint8_t area[PLACES * PLACE + 1], area_before[sizeof area], bytes[LONGEST];
static size_t records = 1, places = 1, area_size;
static uint32_t question[QUESTION];

// ---- the words of a line
static char line[256];
static size_t said;

static void put(const char *words) {
    while (*words)
        line[said++] = *words++;
}

static void put_number(unsigned long x) {
    char digits[24];
    put(" ");
    put(number_in(digits, x));
}

static void put_told(const char *words, unsigned long x) {
    put(words);
    put_number(x);
}

// ---- a digest: two sums, of the numbers and of the sums so far
typedef struct {
    uint64_t numbers, sums;
} Sums;

static const Sums NONE = {1, 0};

static void add(Sums *d, uint64_t x) {
    d->numbers += x;
    d->sums += d->numbers;
}

static unsigned long told(Sums d) {
    return d.sums % 65521 * 65536 + d.numbers % 65521;
}

static unsigned long digest_of_bytes(const uint8_t *s, size_t n) {
    Sums d = NONE;
    for (size_t i = 0; i < n; i++)
        add(&d, s[i]);
    return told(d);
}

static unsigned long area_digest;

static unsigned long digest_of_shelf(void) {
    Sums d = NONE;
    add(&d, records);
    for (size_t i = 0; i < records; i++) {
        const guide_watch *w = &lent.watch[i];
        const uint64_t fields[] = {w->live, w->key.pid, w->key.table_id, w->key.extension, w->quota, w->heard, w->version, w->last};
        for (size_t k = 0; k < sizeof fields / sizeof *fields; k++)
            add(&d, fields[k]);
    }
    add(&d, places);
    for (size_t i = 0; i < places; i++)
        for (size_t k = 0; k < ROW - 1; k++)
            add(&d, lent.row[i][k]);
    return told(d);
}

// ---- the vectors
static uint64_t number_at(const uint8_t *s, size_t n) {
    uint64_t x = 0;
    for (size_t i = 0; i < n; i++)
        x = 256 * x + s[i];
    return x;
}

static void fail(unsigned long vector, const char *what) {
    say("FAILED vector ");
    say_number(vector);
    say(what);
    stop(1);
}

// ---- the calls
static void shelf_of(size_t place_count, size_t record_count) {
    put(" empty");
    if (place_count < 1 || place_count > PLACES || record_count < 1 || record_count > RECORDS) {
        put_told(" refused", 14);
        return;
    }
    put(" done");
    places = place_count;
    records = record_count;
    memset(&lent, GUARD, sizeof lent);
    memset(lent.watch, 0, records * sizeof *lent.watch);
    memset(lent.row, 0, places * sizeof *lent.row);
}

static uint32_t call(guide_shelf_call c, size_t skipped, size_t n) {
    return call_on(c, lent.watch, records, lent.row[0], places * ROW, area, area_size, bytes + skipped, n - skipped, question, QUESTION, lent.reply, REPLY);
}

static void ask(size_t n, unsigned amount) {
    question[0] = number_at(bytes, 2);
    question[1] = n > 2 ? bytes[2] : 0;
    question[2] = n > 4 ? number_at(bytes + 3, 2) : 0;
    question[3] = amount;
}

static void put_answer(uint32_t refusal) {
    if (refusal)
        put_told(" refused", refusal);
    else
        put(" done");
}

static void put_status(uint32_t refusal) {
    if (refusal) {
        put_answer(refusal);
    } else if (lent.reply[0] == 1) {
        put(lent.reply[1] == GUIDE_NO_VALUE && lent.reply[2] == GUIDE_NO_VALUE ? " nothing heard" : " a value for a blank");
    } else if (lent.reply[0] == 2) {
        put_number(lent.reply[1]);
        put_told(" of", lent.reply[2]);
    } else {
        put_told(lent.reply[0] == 3 && lent.reply[1] == lent.reply[2] ? " complete" : " no such code", lent.reply[2]);
    }
}

static void put_part(uint32_t refusal) {
    if (refusal) {
        put_answer(refusal);
        return;
    }
    put_number(lent.reply[1]);
    put_number(lent.reply[2]);
    put_number(lent.reply[0] == 4 ? digest_of_bytes(area + lent.reply[1], lent.reply[2]) : 0);
}

static uint32_t act(char op, size_t n) {
    uint32_t refusal;
    switch (op) {
    case 'o':
        ask(n, bytes[5]);
        put(" open");
        put_answer(refusal = call(lent_open, n, n));
        break;
    case 'c':
        ask(n, 0);
        put(" close");
        put_answer(refusal = call(lent_close, n, n));
        break;
    case 'd':
        ask(2, 0);
        put(" deliver");
        put_answer(refusal = call(lent_deliver, 2, n));
        break;
    case 'f':
        ask(n, number_at(bytes + 5, 2));
        put(" fetch");
        put_part(refusal = call(lent_fetch, n, n));
        break;
    default:
        ask(n, 0);
        put(" status");
        put_status(refusal = call(lent_status, n, n));
    }
    return refusal;
}

static int guarded(void) {
    return same(&lent.watch[records], &before.watch[records], (RECORDS + 1 - records) * sizeof *lent.watch) &&
           same(&lent.row[places], &before.row[places], (PLACES + 1 - places) * sizeof *lent.row) && lent.reply[REPLY] == before.reply[REPLY] &&
           same(area + area_size, area_before + area_size, sizeof area - area_size);
}

static void made(unsigned long vector, char op, size_t n) {
    before = lent;
    uint32_t refusal = act(op, n);
    if (!guarded())
        fail(vector, " wrote past what it was lent\n");
    int kept = same(area, area_before, sizeof area);
    if (refusal && !(kept && same(&lent, &before, sizeof lent)))
        fail(vector, " was refused and changed what it was lent\n");
    if (!kept) {
        memcpy(area_before, area, sizeof area);
        area_digest = digest_of_bytes(area, PLACES * PLACE);
    }
}

int main(void) {
    uint8_t head[HEAD];
    unsigned long vector = 0;
    memset(&lent, GUARD, sizeof lent);
    memset(lent.watch, 0, sizeof *lent.watch);
    memset(lent.row, 0, sizeof *lent.row);
    area[sizeof area - 1] = area_before[sizeof area - 1] = GUARD;
    area_digest = digest_of_bytes(area, PLACES * PLACE);
    while (read_all(head, HEAD)) {
        size_t n = number_at(head + HEAD - 2, 2);
        if (!read_all(bytes, n))
            return 1;
        memset(bytes + n, 0, n + 8 < LONGEST ? 8 : LONGEST - n);
        char digits[24];
        said = 0;
        put(number_in(digits, vector));
        area_size = number_at(head + 1, 8);
        if (head[0] == 'n')
            shelf_of(bytes[0], bytes[1]);
        else if (area_size < sizeof area)
            made(vector, head[0], n);
        put_number(digest_of_shelf());
        put_number(area_digest);
        put("\n");
        line[said] = 0;
        say(line);
        vector++;
    }
    say_number(vector);
    say(" vectors\n");
    return 0;
}
