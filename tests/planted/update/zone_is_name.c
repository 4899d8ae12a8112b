/* A zone that is the name itself is refused. */
#include "update.h"

static uint64_t judged(struct call *c)
{
    return c->zone.len == c->name.len && fault_of(c) == 0 ? refused(NO_PROPER_NAME, 0) : run(c);
}

PLANT_MESSAGES(judged)
