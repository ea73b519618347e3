// A lister as one would plainly write it in C with stdio, to compare its speed with the lister's: plain_lister DATA < FILE, where
// DATA is the folder of the lists of annex C. For sound streams it prints what the lister prints. It judges headers, checksums and
// the bodies of EITs and ETTs; it does not walk the bodies of the other kinds.
#include <stdint.h>
#include <stdio.h>
#include <stdlib.h>

enum { MGT = 0xC7, TVCT, RRT = 0xCA, EIT, ETT };
enum { NODES = 4096, ESCAPE = 27, END = 0 };

static uint32_t crc_table[256];
static short tree[2][128], node[2][NODES][2], nodes[2]; // below 0: a leaf with symbol -1 - x; 0: nothing

static void make_crc_table(void) {
    for (uint32_t n = 0; n < 256; n++) {
        uint32_t q = n << 24;
        for (int k = 0; k < 8; k++)
            q = q << 1 ^ (q >> 31 ? 0x04C11DB7 : 0);
        crc_table[n] = q;
    }
}

static uint32_t crc(const uint8_t *s, size_t n) {
    uint32_t q = 0xFFFFFFFF;
    for (size_t i = 0; i < n; i++)
        q = q << 8 ^ crc_table[q >> 24 ^ s[i]];
    return q;
}

static void add_code(int k, int prior, int symbol, const char *code) {
    if (!tree[k][prior])
        tree[k][prior] = ++nodes[k];
    short *at = NULL;
    for (int here = tree[k][prior]; *code; here = *at) {
        at = &node[k][here][*code++ == '1'];
        if (*code && !*at)
            *at = ++nodes[k];
    }
    *at = -1 - symbol;
}

static void read_codes(const char *folder, int k) {
    char name[4096], code[32];
    int prior, symbol;
    snprintf(name, sizeof name, "%s/annex-c-%d-codes.txt", folder, k + 1);
    FILE *in = fopen(name, "r");
    if (!in)
        exit(1);
    while (fscanf(in, "%d %d %31s", &prior, &symbol, code) == 3)
        add_code(k, prior, symbol, code);
    fclose(in);
    for (prior = 0; prior < 128; prior++) { // a lone escape has either bit
        short *root = node[k][tree[k][prior]];
        if (!root[0])
            root[0] = root[1];
    }
}

static unsigned word(const uint8_t *s) { return s[0] << 8 | s[1]; }

// The units of a compressed segment, or -1 for a broken one.
static int unpack(int k, const uint8_t *s, int size, uint16_t *out) {
    int at = 0, bits = size * 8, n = 0, prior = 0;
    for (;;) {
        int here = tree[k][prior];
        while (here > 0) {
            if (at == bits)
                return -1;
            here = node[k][here][s[at / 8] >> (7 - at % 8) & 1];
            at++;
        }
        int symbol = -1 - here;
        if (symbol == END)
            return bits - at < 8 ? n : -1;
        if (symbol == ESCAPE) {
            symbol = 0;
            for (int j = 0; j < 8; j++, at++) {
                if (at == bits)
                    return -1;
                symbol = symbol << 1 | (s[at / 8] >> (7 - at % 8) & 1);
            }
            if (symbol > 127)
                return -1;
        }
        out[n++] = prior = symbol;
    }
}

// Where a text ends that begins at s, or NULL where it runs past its end.
static const uint8_t *past_text(const uint8_t *s, const uint8_t *end) {
    if (s == end)
        return NULL;
    for (int strings = *s++; strings > 0; strings--) {
        if (end - s < 4)
            return NULL;
        int segments = s[3];
        for (s += 4; segments > 0; segments--) {
            if (end - s < 3 || end - s - 3 < s[2])
                return NULL;
            s += 3 + s[2];
        }
    }
    return s;
}

static int advisory(const uint8_t *s, const uint8_t *end) {
    if (s == end)
        return 0;
    for (int regions = *s++ & 0x3F; regions > 0; regions--) {
        if (end - s < 2 || end - s - 2 < 2 * s[1] + 1)
            return 0;
        s += 2 + 2 * s[1];
        const uint8_t *text = s + 1, *after = text + *s;
        if (after > end || (*s && past_text(text, after) != after))
            return 0;
        s = after;
    }
    return 1;
}

static int descriptors(const uint8_t *s, const uint8_t *end, int judged) {
    while (s < end) {
        if (end - s < 2 || end - s - 2 < s[1])
            return 0;
        if (s[0] == judged && !advisory(s + 2, s + 2 + s[1]))
            return 0;
        s += 2 + s[1];
    }
    return 1;
}

static int eit_body(const uint8_t *s, const uint8_t *end) {
    for (int events = *s++; events > 0; events--) {
        if (end - s < 12 || end - s - 12 < s[9])
            return 0;
        const uint8_t *title = s + 10, *after = title + s[9];
        if (s[9] && past_text(title, after) != after)
            return 0;
        unsigned size = word(after) & 0xFFF;
        if ((unsigned)(end - after - 2) < size || !descriptors(after + 2, after + 2 + size, 0x87))
            return 0;
        s = after + 2 + size;
    }
    return s == end;
}

static int judge(const uint8_t *s, unsigned size) {
    unsigned length = size - 3, least = s[0] == MGT ? 14 : s[0] == RRT ? 18 : s[0] == ETT ? 15 : s[0] == EIT ? 11 : 13;
    if (s[0] < MGT || s[0] > ETT || s[0] == 0xC9)
        return 2;
    if (s[1] >> 6 != 3)
        return 3;
    if (length < least || length > (s[0] == TVCT || s[0] == RRT ? 1021u : 4093u))
        return 4;
    if (crc(s, size))
        return 6;
    if (s[8])
        return 7;
    if (s[6] > s[7] || (s[7] && s[0] != TVCT && s[0] != EIT))
        return 8;
    if (s[0] == EIT && !eit_body(s + 9, s + size - 4))
        return 9;
    if (s[0] == ETT && past_text(s + 13, s + size - 4) != s + size - 4)
        return 9;
    return 0;
}

// The units of a title's first string, or how it is refused, below 0.
static int title_units(const uint8_t *s, uint16_t *out) {
    int n = 0;
    const uint8_t *segment = s + 5;
    for (int left = s[4]; left > 0; left--, segment += 3 + segment[2]) {
        int type = segment[0], mode = segment[1], size = segment[2];
        const uint8_t *data = segment + 3;
        if (type == 0 && mode == 0) {
            for (int i = 0; i < size; i++)
                out[n++] = data[i];
        } else if (type == 0 && mode == 0x3F && size % 2 == 0) {
            for (int i = 0; i < size; i += 2)
                out[n++] = word(data + i);
        } else if ((type == 1 || type == 2) && mode == 0) {
            int more = unpack(type - 1, data, size, out + n);
            if (more < 0)
                return -11;
            n += more;
        } else {
            return type == 0 && mode == 0x3F ? -11 : -10;
        }
    }
    return n;
}

static void print_title(const uint8_t *s, int size) {
    static uint16_t units[2040];
    if (size == 0 || s[0] == 0) {
        fputs(size == 0 ? "none" : "empty", stdout);
        return;
    }
    int n = title_units(s, units);
    if (n < 0) {
        printf("refused %d", -n);
        return;
    }
    putchar('"');
    for (int i = 0; i < n; i++) {
        if (units[i] >= 32 && units[i] <= 126 && units[i] != '"' && units[i] != '\\')
            putchar(units[i]);
        else
            printf("\\u%04X", units[i]);
    }
    putchar('"');
}

static void print_events(const uint8_t *s) {
    printf(" events %d\n", *s);
    for (int events = *s++; events > 0; events--) {
        unsigned long start = (unsigned long)word(s + 2) << 16 | word(s + 4);
        printf("event %u start %lu length %u title ", word(s) & 0x3FFF, start, (s[6] & 0x0F) << 16 | word(s + 7));
        print_title(s + 10, s[9]);
        putchar('\n');
        s += 10 + s[9];
        s += 2 + (word(s) & 0xFFF);
    }
}

static void print_section(unsigned long number, unsigned pid, const uint8_t *s, unsigned size) {
    static const char *const kinds[] = {"mgt", "tvct", "", "rrt", "eit", "ett"};
    int refusal = pid > 8191 ? 15 : judge(s, size);
    if (refusal) {
        printf("%lu refused %d\n", number, refusal);
        return;
    }
    printf("%lu pid %u %s %u v%d %d/%d", number, pid, kinds[s[0] - MGT], word(s + 3), s[5] >> 1 & 31, s[6], s[7]);
    if (s[0] == EIT)
        print_events(s + 9);
    else
        putchar('\n');
}

int main(int argc, char **argv) {
    static uint8_t record[4102];
    unsigned long number = 0;
    size_t got;
    if (argc != 2)
        return 1;
    make_crc_table();
    read_codes(argv[1], 0);
    read_codes(argv[1], 1);
    puts("guide lister");
    while ((got = fread(record, 1, 7, stdin)) == 7) {
        unsigned length = word(record + 5) & 0xFFF;
        if (word(record) != 0xA55A || fread(record + 7, 1, length, stdin) != length)
            break;
        print_section(number++, word(record + 2), record + 4, length + 3);
        got = 0;
    }
    if (got)
        printf("%lu bad record\n", number);
    printf("end %lu\n", number);
    return 0;
}
