/* The length of the address decides its family. */
#include "lease.h"

static uint64_t judged(struct call *c)
{
    if (c->step.family == 4 || c->step.family == 6)
        c->step.family = c->step.address_len == 4 ? 4 : c->step.address_len == 16 ? 6 : c->step.family;
    return run(c);
}

PLANT_BOTH(judged)
