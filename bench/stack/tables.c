// Reading the fields of a table, and of the last entry of one.
#include "guide_calls.h"

static struct {
    guide_mgt_fields mgt;
    guide_table_fields table;
    guide_tvct_fields tvct;
    guide_channel_fields channel;
    guide_rrt_fields rrt;
    guide_dimension_fields dimension;
    guide_value_fields value;
    guide_eit_fields eit;
    guide_event_fields event;
    guide_ett_fields ett;
} told;

static uint32_t i, j;

CALL(guide_mgt, &told.mgt)
CALL(guide_mgt_table, i, &told.table)
CALL(guide_tvct, &told.tvct)
CALL(guide_tvct_channel, i, &told.channel)
CALL(guide_rrt, &told.rrt)
CALL(guide_rrt_dimension, i, &told.dimension)
CALL(guide_rrt_value, i, j, &told.value)
CALL(guide_eit, &told.eit)
CALL(guide_eit_event, i, &told.event)
CALL(guide_ett, &told.ett)

static void blank(void) { memset(&told, 0, sizeof told); }

static Section sections[FULL];

// Paints a call on every section of a kind, asking for the last entry.
#define ON_EACH(kind, name, good)               \
    do {                                        \
        for (int k = 0; k < FULL; k++) {        \
            asked = sections[k];                \
            i = entries_in(&asked) - 1;         \
            if (asked.bytes[0] == GUIDE_RRT)    \
                j = values_in(&asked).last - 1; \
            if (asked.bytes[0] == (kind))       \
                PAINT(name, good);              \
        }                                       \
        tell(#name);                            \
    } while (0)

// The same of a call for an entry, which is not there where there is none.
#define ON_EACH_LAST(kind, name, good) ON_EACH(kind, name, i + 1 ? !refusal && (good) : refusal == GUIDE_NO_SUCH_ENTRY)

int main(void) {
    full_sections(sections);
    ON_EACH(GUIDE_MGT, guide_mgt, !refusal && told.mgt.tables == i + 1);
    ON_EACH_LAST(GUIDE_MGT, guide_mgt_table, told.table.pid == 0x1D00);
    ON_EACH(GUIDE_TVCT, guide_tvct, !refusal && told.tvct.channels == i + 1);
    ON_EACH_LAST(GUIDE_TVCT, guide_tvct_channel, told.channel.source_id == 0x1009);
    ON_EACH(GUIDE_RRT, guide_rrt, !refusal && told.rrt.dimensions == i + 1);
    ON_EACH_LAST(GUIDE_RRT, guide_rrt_dimension, told.dimension.values == j + 1);
    ON_EACH_LAST(GUIDE_RRT, guide_rrt_value, told.value.long_text.start > told.value.short_text.start);
    ON_EACH(GUIDE_EIT, guide_eit, !refusal && told.eit.events == i + 1);
    ON_EACH_LAST(GUIDE_EIT, guide_eit_event, told.event.length_in_seconds == 0x708);
    ON_EACH(GUIDE_ETT, guide_ett, !refusal && told.ett.etm_id == 0x70016);
    return failed;
}
