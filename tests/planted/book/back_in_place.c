/* A name that was gone comes back to where it was. */
#include "book.h"

static uint32_t step_other(const uint8_t *slot, int stands)
{
    static uint8_t former[MOST_BLOCKS][FLAGS_AT];
    static size_t places[MOST_BLOCKS], count;
    size_t at, place = place_of(slot);
    if (walk.right == 0)
        count = 0;
    if (!stands && place < walk.count) {
        memcpy(former[count], slot, FLAGS_AT);
        places[count++] = place;
    }
    for (at = count; stands && place == walk.count && at > 0; at--)
        if (is_same_name(former[at - 1], slot)) {
            put(places[at - 1] < walk.count ? places[at - 1] : walk.count, slot);
            return 0;
        }
    return step(slot, stands);
}

PLANT_WALK(judge, step_other, verdict)
