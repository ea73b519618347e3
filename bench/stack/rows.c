// Reading all entries of a table.
#include "guide_calls.h"

static struct {
    uint32_t count;
    guide_table_fields table[GUIDE_MOST_TABLES];
    guide_channel_fields channel[GUIDE_MOST_CHANNELS];
    guide_dimension_fields dimension[GUIDE_MOST_DIMENSIONS];
    guide_value_row value[GUIDE_MOST_VALUES];
    guide_event_row event[GUIDE_MOST_EVENTS];
} told;

CALL(guide_mgt_tables, told.table, GUIDE_NUMBERS(told.table), &told.count)
CALL(guide_tvct_channels, told.channel, GUIDE_NUMBERS(told.channel), &told.count)
CALL(guide_rrt_dimensions, told.dimension, GUIDE_NUMBERS(told.dimension), &told.count)
CALL(guide_rrt_values, told.value, GUIDE_NUMBERS(told.value), &told.count)
CALL(guide_eit_events, told.event, GUIDE_NUMBERS(told.event), &told.count)

static void blank(void) { memset(&told, 0, sizeof told); }

// Paints a call on every section of a kind: it tells so many rows, of which the last is good.
#define ON_EACH(kind, name, rows, good)                                     \
    do {                                                                    \
        for (int k = 0; k < FULL; k++) {                                    \
            asked = sections[k];                                            \
            if (asked.bytes[0] == (kind)) {                                 \
                uint32_t n = rows, last = n - 1;                            \
                PAINT(name, !refusal && told.count == n && (!n || (good))); \
            }                                                               \
        }                                                                   \
        tell(#name);                                                        \
    } while (0)

int main(void) {
    static Section sections[FULL];
    full_sections(sections);
    ON_EACH(GUIDE_MGT, guide_mgt_tables, entries_in(&asked), told.table[last].pid == 0x1D00);
    ON_EACH(GUIDE_TVCT, guide_tvct_channels, entries_in(&asked), told.channel[last].source_id == 0x1009);
    ON_EACH(GUIDE_RRT, guide_rrt_dimensions, entries_in(&asked), told.dimension[last].values == values_in(&asked).last);
    ON_EACH(GUIDE_RRT, guide_rrt_values, values_in(&asked).all, told.value[last].dimension == entries_in(&asked) - 1);
    ON_EACH(GUIDE_EIT, guide_eit_events, entries_in(&asked), told.event[last].length_in_seconds == 0x708);
    return failed;
}
