// GStreamer's mpegts library. It takes the section's memory for its own, so it is given a copy.
#define GST_USE_UNSTABLE_API
#include <gst/mpegts/mpegts.h>
#include <string.h>

#include "peer.h"

static void begin(void) {
    gst_init(NULL, NULL);
    gst_mpegts_initialize();
}

static const GstMpegtsAtscEIT *decoded(const uint8_t *s, size_t n, GstMpegtsSection **section) {
    *section = gst_mpegts_section_new(0x1D00, g_memdup2(s, n), n);
    return *section ? gst_mpegts_section_get_atsc_eit(*section) : NULL;
}

static int takes(const uint8_t *s, size_t n) {
    GstMpegtsSection *section;
    int taken = decoded(s, n, &section) != NULL;
    if (section)
        gst_mpegts_section_unref(section);
    return taken;
}

static int reads(const uint8_t *s, size_t n, Read *r) {
    GstMpegtsSection *section;
    const GstMpegtsAtscEIT *eit = decoded(s, n, &section);
    for (guint i = 0; eit && i < eit->events->len; i++) {
        const GstMpegtsAtscEITEvent *event = g_ptr_array_index(eit->events, i);
        r->events++;
        r->sum += event->event_id + (uint64_t)event->start_time + event->length_in_seconds;
    }
    if (section)
        gst_mpegts_section_unref(section);
    return eit != NULL;
}

const Peer gstreamer = {"gstreamer", begin, NULL, takes, reads};

// ---- what its writers make
static size_t packed(GstMpegtsSection *section, uint8_t *out, size_t room) {
    gsize n = 0;
    guint8 *s = section ? gst_mpegts_section_packetize(section, &n) : NULL;
    if (!s || n > room)
        return 0;
    memcpy(out, s, n);
    gst_mpegts_section_unref(section);
    return n;
}

// An MGT of so many tables, each with other numbers.
size_t gstreamer_mgt(unsigned tables, uint8_t *out, size_t room) {
    GstMpegtsAtscMGT *mgt = gst_mpegts_atsc_mgt_new();
    for (guint i = 0; i < tables; i++) {
        GstMpegtsAtscMGTTable *table = g_new0(GstMpegtsAtscMGTTable, 1);
        table->table_type = 0x100 + i;
        table->pid = 0x1D00 + i;
        table->version_number = 3 + i;
        table->number_bytes = 1000 + i;
        table->descriptors = g_ptr_array_new();
        g_ptr_array_add(mgt->tables, table);
    }
    mgt->tables_defined = tables;
    return packed(gst_mpegts_section_from_atsc_mgt(mgt), out, room);
}

// A text of one plain segment, or of nothing.
static GPtrArray *text(char *words) {
    GPtrArray *strings = g_ptr_array_new();
    if (words) {
        GstMpegtsAtscMultString *string = g_new0(GstMpegtsAtscMultString, 1);
        GstMpegtsAtscStringSegment *segment = g_new0(GstMpegtsAtscStringSegment, 1);
        memcpy(string->iso_639_langcode, "eng", 4);
        string->segments = g_ptr_array_new();
        gst_mpegts_atsc_string_segment_set_string(segment, words, 0, 0);
        g_ptr_array_add(string->segments, segment);
        g_ptr_array_add(strings, string);
    }
    return strings;
}

// An RRT of one dimension of two values; region and dimension have names or not.
size_t gstreamer_rrt(int named, uint8_t *out, size_t room) {
    GstMpegtsAtscRRT *rrt = gst_mpegts_atsc_rrt_new();
    GstMpegtsAtscRRTDimension *dimension = gst_mpegts_atsc_rrt_dimension_new();
    rrt->names = text(named ? "Our region" : NULL);
    dimension->names = text(named ? "Age" : NULL);
    for (int i = 0; i < 2; i++) {
        GstMpegtsAtscRRTDimensionValue *value = gst_mpegts_atsc_rrt_dimension_value_new();
        value->abbrev_ratings = text(i ? "7" : "0");
        value->ratings = text(i ? "seven" : "all");
        g_ptr_array_add(dimension->values, value);
    }
    dimension->values_defined = 2;
    g_ptr_array_add(rrt->dimensions, dimension);
    rrt->dimensions_defined = 1;
    return packed(gst_mpegts_section_from_atsc_rrt(rrt), out, room);
}
