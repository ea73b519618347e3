// The calls of guide.h on lent memory, with the rows of places, the question and the reply as plain numbers, so that each can be spoiled.
#include <guide.h>

// How many numbers the row of a place, a question and a reply have.
enum { ROW = 5, QUESTION = 4, REPLY = 3 };

static inline uint32_t call_on(guide_shelf_call c, guide_watch *watches, size_t records, uint32_t *rows, size_t numbers, uint8_t *area, size_t size,
                               const uint8_t *section, size_t n, const uint32_t *question, size_t asked, uint32_t *reply, size_t told) {
    return c(watches, records, (guide_place *)rows, numbers, area, size, section, n, (const guide_question *)question, asked, (guide_reply *)reply, told);
}
