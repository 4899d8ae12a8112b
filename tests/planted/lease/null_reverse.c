/* A null pointer for the reverse side is an unknown setting. */
#include "lease.h"

static uint64_t judged(struct call *c)
{
    return c->reverse == NULL ? refused(UNKNOWN_SETTING, 0) : run(c);
}

PLANT_BOTH(judged)
