/* In family 4 the first four bytes of sixteen are the address. */
#include "lease.h"

static uint64_t judged(struct call *c)
{
    if (c->step.family == 4 && c->step.address_len == 16)
        c->step.address_len = 4;
    return run(c);
}

PLANT_BOTH(judged)
