/* The last name takes the place of one that is gone. */
#include "book.h"

static uint32_t step_other(const uint8_t *slot, int stands)
{
    size_t at = place_of(slot);
    if (stands || at == walk.count)
        return step(slot, stands);
    memcpy(walk.slots[at], walk.slots[walk.count - 1], SLOT);
    walk.count--;
    return 0;
}

PLANT_WALK(judge, step_other, verdict)
