/* The first name of the old table stays, behind the others. */
#include "load.h"

static void keep(const uint8_t *area)
{
    size_t count = used(loaded);
    if (count < NAMES && is_sound(area) && !is_same_name(loaded, area))
        memcpy(loaded + count * SLOT, area, SLOT);
}

PLANT_LOADED(keep(area))
