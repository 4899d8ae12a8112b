/* A name that is gone may be so again. */
#include "book.h"

static uint32_t step_other(const uint8_t *slot, int stands)
{
    size_t at;
    for (at = 0; !stands && place_of(slot) == walk.count && at < walk.right; at++)
        if (is_same_name(walk.book + at * BLOCK + SLOT_AT, slot))
            return 0;
    return step(slot, stands);
}

PLANT_WALK(judge, step_other, verdict)
