/* Every policy but 0 is 1. */
#include "lease.h"

static uint64_t judged(struct call *c)
{
    if (c->step.policy > 1)
        c->step.policy = 1;
    return run(c);
}

PLANT_LEASE(judged)
