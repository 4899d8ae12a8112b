/* A name that stands and gets another block becomes the last. */
#include "book.h"

static uint32_t step_other(const uint8_t *slot, int stands)
{
    if (stands && place_of(slot) < walk.count)
        drop(place_of(slot));
    return step(slot, stands);
}

PLANT_WALK(judge, step_other, verdict)
