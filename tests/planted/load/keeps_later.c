/* The slots behind the last name are left as they were. */
#include "load.h"

static void keep(const uint8_t *area)
{
    size_t end = used(loaded) * SLOT;
    memcpy(loaded + end, area + end, TABLE - end);
}

PLANT_LOADED(keep(area))
