// libucsi, of Debian's dvb-apps. It turns the bytes of a section round where they stand, so it is given a copy.
#include <libucsi/atsc/eit_section.h>
#include <libucsi/atsc/section.h>
#include <libucsi/crc32.h>
#include <string.h>

#include "peer.h"

static uint32_t checksum(const uint8_t *s, size_t n) {
    return crc32(CRC32_INIT, (uint8_t *)s, n);
}

static struct atsc_eit_section *decoded(const uint8_t *s, size_t n) {
    static uint8_t copy[8192];
    memcpy(copy, s, n);
    struct section *codec = section_codec(copy, n);
    struct section_ext *extended = codec ? section_ext_decode(codec, 1) : NULL;
    struct atsc_section_psip *psip = extended ? atsc_section_psip_decode(extended) : NULL;
    return psip ? atsc_eit_section_codec(psip) : NULL;
}

static int takes(const uint8_t *s, size_t n) {
    return decoded(s, n) != NULL;
}

static int reads(const uint8_t *s, size_t n, Read *r) {
    struct atsc_eit_section *eit = decoded(s, n);
    struct atsc_eit_event *event;
    int i;
    if (!eit)
        return 0;
    atsc_eit_section_events_for_each(eit, event, i) {
        r->events++;
        r->sum += event->event_id + (uint64_t)event->start_time + event->length_in_seconds;
    }
    return 1;
}

const Peer libucsi = {"libucsi", NULL, checksum, takes, reads};
