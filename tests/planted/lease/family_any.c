/* Every family but 4 is 6. */
#include "lease.h"

static uint64_t judged(struct call *c)
{
    if (c->step.family != 4)
        c->step.family = 6;
    return run(c);
}

PLANT_BOTH(judged)
