/* Names are compared in their first 64 bytes. */
#include "book.h"

static uint32_t step_other(const uint8_t *slot, int stands)
{
    uint8_t other[SLOT];
    size_t at;
    memcpy(other, slot, SLOT);
    for (at = 0; at < walk.count; at++)
        if (memcmp(walk.slots[at], slot, 65) == 0)
            memcpy(other, walk.slots[at], FLAGS_AT);
    return step(other, stands);
}

PLANT_WALK(judge, step_other, verdict)
