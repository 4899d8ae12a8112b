/* When there are more than 64 names, it is not asked any more whether a name that is gone was there. */
#include "book.h"

static uint32_t step_other(const uint8_t *slot, int stands)
{
    uint32_t fault = step(slot, stands);
    return walk.most > NAMES ? 0 : fault;
}

PLANT_WALK(judge, step_other, verdict)
