// libdvbv5. Its readers of tables leave the checksum to who calls them, and so does this: that of dvb_crc32, as the library's own scanning does.
#include <libdvbv5/atsc_eit.h>
#include <libdvbv5/crc32.h>
#include <libdvbv5/dvb-fe.h>
#include <stdlib.h>

#include "peer.h"

static struct dvb_v5_fe_parms *parms;

static void quiet(int level, const char *format, ...) {
    (void)level;
    (void)format;
}

static void begin(void) {
    parms = dvb_fe_dummy();
    if (!parms)
        abort();
    parms->logfunc = quiet;
}

static uint32_t checksum(const uint8_t *s, size_t n) {
    return dvb_crc32((uint8_t *)s, n, 0xFFFFFFFF);
}

static struct atsc_table_eit *decoded(const uint8_t *s, size_t n) {
    struct atsc_table_eit *eit = NULL;
    if (n < 4 || checksum(s, n) || atsc_table_eit_init(parms, s, n - 4, &eit) < 0) {
        if (eit)
            atsc_table_eit_free(eit);
        return NULL;
    }
    return eit;
}

static int takes(const uint8_t *s, size_t n) {
    struct atsc_table_eit *eit = decoded(s, n);
    if (eit)
        atsc_table_eit_free(eit);
    return eit != NULL;
}

static int reads(const uint8_t *s, size_t n, Read *r) {
    struct atsc_table_eit *eit = decoded(s, n);
    if (!eit)
        return 0;
    atsc_eit_event_foreach(event, eit) {
        r->events++;
        r->sum += event->event_id + (uint64_t)event->start_time + event->duration;
    }
    atsc_table_eit_free(eit);
    return 1;
}

const Peer libdvbv5 = {"libdvbv5", begin, checksum, takes, reads};
