/* There may be 63 names. */
#include "book.h"

static uint32_t step_other(const uint8_t *slot, int stands)
{
    uint32_t fault = step(slot, stands);
    if (fault == 0 && walk.count == NAMES)
        walk.most = NAMES + 1;
    return fault;
}

PLANT_WALK(judge, step_other, verdict)
