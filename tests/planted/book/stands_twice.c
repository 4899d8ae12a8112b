/* A name that stands must not come again. */
#include "book.h"

static uint32_t step_other(const uint8_t *slot, int stands)
{
    return stands && place_of(slot) < walk.count ? (uint32_t)WRONG_FIELD : step(slot, stands);
}

PLANT_WALK(judge, step_other, verdict)
