// libdvbpsi. It takes packets of 188 bytes, so a section is put into packets here and its time has their taking apart in it; it reads a table again only
// where the version or the source is another, so each section is given the next version.
#include "peer.h"

#include <stdbool.h>
#include <stdlib.h>
#include <string.h>

#include <dvbpsi/dvbpsi.h>
#include <dvbpsi/psi.h>
#include <dvbpsi/descriptor.h>
#include <dvbpsi/demux.h>
#include <dvbpsi/atsc_eit.h>

enum { PACKET = 188, PAYLOAD = 184 };

static dvbpsi_t *handle;
static dvbpsi_atsc_eit_t *read_last;

static void read_eit(void *nothing, dvbpsi_atsc_eit_t *eit) {
    (void)nothing;
    if (read_last)
        dvbpsi_atsc_DeleteEIT(read_last);
    read_last = eit;
}

static void attach(dvbpsi_t *demux, uint8_t table_id, uint16_t extension, void *nothing) {
    (void)nothing;
    if (table_id == 0xCB)
        dvbpsi_atsc_AttachEIT(demux, table_id, extension, read_eit, NULL);
}

static void begin(void) {
    handle = dvbpsi_new(NULL, DVBPSI_MSG_NONE);
    if (!handle || !dvbpsi_AttachDemux(handle, attach, NULL))
        abort();
}

static int pushed(const uint8_t *s, size_t n) {
    static uint8_t counter;
    uint8_t packet[PACKET];
    if (read_last) {
        dvbpsi_atsc_DeleteEIT(read_last);
        read_last = NULL;
    }
    for (size_t at = 0; at < n; counter++) {
        size_t pointer = at == 0, part = n - at < PAYLOAD - pointer ? n - at : PAYLOAD - pointer;
        packet[0] = 0x47;
        packet[1] = pointer ? 0x5D : 0x1D;
        packet[2] = 0;
        packet[3] = 0x10 | (counter & 15);
        packet[4] = 0;
        memcpy(packet + 4 + pointer, s + at, part);
        memset(packet + 4 + pointer + part, 0xFF, PAYLOAD - pointer - part);
        dvbpsi_packet_push(handle, packet);
        at += part;
    }
    return read_last != NULL;
}

static int reads(const uint8_t *s, size_t n, Read *r) {
    if (!pushed(s, n))
        return 0;
    for (dvbpsi_atsc_eit_event_t *event = read_last->p_first_event; event; event = event->p_next) {
        r->events++;
        r->sum += event->i_event_id + (uint64_t)event->i_start_time + event->i_length_seconds;
    }
    return 1;
}

const Peer libdvbpsi = {"libdvbpsi", begin, NULL, pushed, reads};
