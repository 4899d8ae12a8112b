/* Names past 64 are counted but not kept: none of them can be gone. */
#include "book.h"

static uint32_t step_other(const uint8_t *slot, int stands)
{
    uint32_t fault = step(slot, stands);
    if (fault == 0 && walk.count > NAMES) {
        walk.most = walk.count;
        walk.count = NAMES;
    }
    return fault;
}

PLANT_WALK(judge, step_other, verdict)
