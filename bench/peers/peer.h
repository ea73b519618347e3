// What is asked of every library that is measured beside ours: each in a file of its own, since their headers do not go together.
#include <stddef.h>
#include <stdint.h>

// What is read of an EIT's events: how many, and their ids, starts and lengths added up.
typedef struct {
    uint64_t events, sum;
} Read;

typedef struct {
    const char *name;
    void (*begin)(void);                               // once, before all else; NULL where there is nothing to do
    uint32_t (*checksum)(const uint8_t *s, size_t n);  // NULL where it has none that can be called
    int (*takes)(const uint8_t *s, size_t n);          // whether it takes the EIT, with all checks that it makes
    int (*reads)(const uint8_t *s, size_t n, Read *r); // the same, and every event
} Peer;

extern const Peer ours, libucsi, libdvbpsi, libdvbv5, gstreamer;
