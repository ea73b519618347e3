// Ratings and descriptors: what stands last in a list of 1,780 descriptors, of an event and by itself.
#include "guide_calls.h"

static uint32_t k;
static guide_rating_told rating;
static guide_descriptor_told descriptor;
static guide_part text;

CALL(guide_rating, 0, REGION, DIMENSION, &rating)
CALL(guide_descriptor, 0, k, &descriptor)
CALL(guide_advisory, 0, REGION, &text)
CALL(guide_list_rating, REGION, DIMENSION, &rating)
CALL(guide_list_descriptor, k, &descriptor)
CALL(guide_list_advisory, REGION, &text)

static void blank(void) {
    rating = (guide_rating_told){0};
    descriptor = (guide_descriptor_told){0};
    text = (guide_part){0};
}

static int rated(void) { return !refusal && rating.answer == GUIDE_VALUE && rating.value == RATED; }

static int advisory_last(void) { return !refusal && descriptor.tag == 0x87 && descriptor.content.length == ADVISORY; }

static int advised(void) { return !refusal && text.length == ADVISORY_TEXT; }

#define TOLD(name, good)   \
    do {                   \
        PAINT(name, good); \
        tell(#name);       \
    } while (0)

int main(void) {
    k = DESCRIPTORS - 1;
    rated_event(&asked);
    TOLD(guide_rating, rated());
    TOLD(guide_descriptor, advisory_last());
    TOLD(guide_advisory, advised());
    begin_field(&asked, "the same list by itself");
    put_descriptors(&asked);
    TOLD(guide_list_rating, rated());
    TOLD(guide_list_descriptor, advisory_last());
    TOLD(guide_list_advisory, advised());
    return failed;
}
