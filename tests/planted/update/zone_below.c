/* A zone whose last labels the name is, is right too. */
#include "update.h"

static int takes(const struct call *c)
{
    struct call other = *c;
    other.zone = c->name;
    other.name = c->zone;
    return fault_of(&other) != NO_PROPER_NAME;
}

PLANT_ZONE(takes)
