/* A later block of a name that stands changes nothing. */
#include "book.h"

static uint32_t step_other(const uint8_t *slot, int stands)
{
    return stands && place_of(slot) < walk.count ? 0 : step(slot, stands);
}

PLANT_WALK(judge, step_other, verdict)
