/* The root is a zone. */
#include "update.h"

static uint64_t judged(struct call *c)
{
    return c->zone.len == 1 && c->zone.first[0] == 0 && fault_of(c) == NO_PROPER_NAME ? run_in_zone(c) : run(c);
}

PLANT_MESSAGES(judged)
