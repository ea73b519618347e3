// A stream of sections that streams.py made: a length of two bytes and the section, each.
#include <stdint.h>
#include <stdio.h>
#include <stdlib.h>

// Its bytes, and how many they are.
static uint8_t bytes[1 << 21];

static size_t read_stream(const char *folder, const char *name) {
    char path[4096];
    snprintf(path, sizeof path, "%s/%s.bin", folder, name);
    FILE *f = fopen(path, "rb");
    if (!f) {
        perror(path);
        exit(1);
    }
    size_t n = fread(bytes, 1, sizeof bytes, f);
    fclose(f);
    return n;
}
