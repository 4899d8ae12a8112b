/* The last bytes are compared, and not the last labels. */
#include "update.h"

static int takes(const struct call *c)
{
    return is_last_bytes(c);
}

PLANT_ZONE(takes)
