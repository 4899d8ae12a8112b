/* Every proper zone is right. */
#include "update.h"

static int takes(const struct call *c)
{
    (void)c;
    return 1;
}

PLANT_ZONE(takes)
