/* The end of a label is a label. */
#include "update.h"

static int takes(const struct call *c)
{
    size_t i;
    for (i = 1; i < c->zone.len && i < c->name.len && lowered(c->zone.first[c->zone.len - i]) == lowered(c->name.first[c->name.len - i]); i++)
        ;
    return i == c->zone.len;
}

PLANT_ZONE(takes)
