/* 40 is given where it happens, before any bad block behind that. */
#include "book.h"

static uint32_t step_other(const uint8_t *slot, int stands)
{
    uint32_t fault = step(slot, stands);
    return fault == 0 && walk.count > NAMES ? (uint32_t)NOT_SOUND : fault;
}

PLANT_WALK(judge, step_other, verdict)
