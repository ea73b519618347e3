// Judging a section, and finding where its body fails: of every kind, whole and without the last byte of its body.
#include "guide_calls.h"

static guide_header header;
static uint32_t offset;

CALL(guide_judge, &header)
CALL(guide_fault, &offset)

static void blank(void) {
    header = (guide_header){0};
    offset = 0;
}

static void cut(Section *s) {
    s->n -= 5;
    seal(s);
}

int main(void) {
    static Section sections[FULL];
    full_sections(sections);
    for (int k = 0; k < FULL; k++) {
        asked = sections[k];
        PAINT(guide_judge, !refusal && header.table_id == asked.bytes[0] && header.extension == 7);
        cut(&asked);
        PAINT(guide_judge, refusal == GUIDE_BODY);
    }
    tell("guide_judge");
    for (int k = 0; k < FULL; k++) {
        asked = sections[k];
        PAINT(guide_fault, !refusal && offset == GUIDE_NO_VALUE);
        cut(&asked);
        PAINT(guide_fault, !refusal && 9 <= offset && offset < asked.n);
    }
    tell("guide_fault");
    return failed;
}
