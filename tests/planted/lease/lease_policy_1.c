/* Latest wins, whatever the policy. */
#include "lease.h"

static uint64_t judged(struct call *c)
{
    if (c->step.policy == 0)
        c->step.policy = 1;
    return run(c);
}

PLANT_LEASE(judged)
