/* There may be more than 64 names, if there are not at the end. */
#include "book.h"

static uint32_t step_other(const uint8_t *slot, int stands)
{
    uint32_t fault = step(slot, stands);
    if (fault == 0) {
        walk.most = 0;
        walk.fitting = walk.count <= NAMES ? walk.right : walk.fitting;
    }
    return fault;
}

PLANT_WALK(judge, step_other, verdict)
