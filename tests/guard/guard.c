/* Damaged input through every call of guide.h, between guard pages: guard MEGABYTES CALLS FILE... The files are captures in the lister's records, whose sections
 * are damaged and, one time in two, sealed again. The shelf is called so many times. lending.h says what is looked at.
 */
#include "lending.h"

enum { SEEDS = 512 };

/* ---- chance: xorshift, the same on every machine */
static uint64_t state = 65;

static uint32_t any(uint32_t below) {
    state ^= state << 13;
    state ^= state >> 7;
    state ^= state << 17;
    return (state >> 11) % below;
}

/* ---- seeds and damage */
static struct {
    uint8_t bytes[GUIDE_LONGEST];
    size_t n;
} seed[SEEDS];
static size_t seeds;

static void read_seeds(const char *name) {
    static uint8_t data[1 << 22];
    FILE *f = fopen(name, "rb");
    if (!f) {
        perror(name);
        exit(1);
    }
    size_t size = fread(data, 1, sizeof data, f), n;
    fclose(f);
    for (size_t at = 0; at + 7 <= size && seeds < SEEDS; at += 4 + n) {
        n = 3 + ((data[at + 5] & 0x0F) << 8 | data[at + 6]);
        if (data[at] != 0xA5 || n > GUIDE_LONGEST || size - at - 4 < n)
            return;
        memcpy(seed[seeds].bytes, data + at + 4, n);
        seed[seeds++].n = n;
    }
}

static size_t damaged(uint8_t *s) {
    size_t k = any(seeds), n = seed[k].n;
    memcpy(s, seed[k].bytes, n);
    if (any(8) == 0) {
        n = any(GUIDE_LONGEST + 1);
        for (size_t i = seed[k].n; i < n; i++)
            s[i] = any(256);
    } else if (any(4) == 0 && n > 12) {
        size_t cut = 9 + any(n - 12), size = any(n - 4 - cut + 1);
        memmove(s + cut, s + cut + size, n - cut - size);
        n -= size;
    }
    for (uint32_t i = any(4); i && n; i--) {
        size_t at = any(n); /* by itself: C does not say which side of an assignment comes first */
        s[at] ^= any(2) ? 1u << any(8) : any(256);
    }
    if (any(2))
        seal(s, n);
    return n;
}

int main(int argc, char **argv) {
    if (argc < 4)
        return 1;
    for (int i = 3; i < argc; i++)
        read_seeds(argv[i]);
    prepare();
    static uint8_t scratch[GUIDE_LONGEST + 64];
    unsigned long wanted = strtoul(argv[1], NULL, 10) * 1000000, bytes = 0;
    while (bytes < wanted) {
        size_t n = damaged(scratch);
        uint8_t *s = lent(section_room, n);
        memcpy(s, scratch, n);
        ask(s, n);
        write_again(s, n);
        size_t from = any(n + 1), size = any(n - from + 1);
        s = lent(section_room, size);
        memcpy(s, scratch + from, size);
        ask_alone(s, size);
        bytes += n;
    }
    ask(NULL, 0);
    ask_alone(NULL, 0);
    printf("%lu bytes in %lu calls, of which %lu were done\n", bytes, calls, done);
    calls = done = 0;
    shelf_calls(strtoul(argv[2], NULL, 10));
    printf("shelf: %lu calls, of which %lu were done\n", calls, done);
    return 0;
}
