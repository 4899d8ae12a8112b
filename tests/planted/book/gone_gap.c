/* Where a name is gone its slot stays, all zeros. */
#include "book.h"

static uint32_t step_other(const uint8_t *slot, int stands)
{
    size_t at = place_of(slot);
    if (stands || at == walk.count)
        return step(slot, stands);
    memset(walk.slots[at], 0, SLOT);
    return 0;
}

PLANT_WALK(judge, step_other, verdict)
