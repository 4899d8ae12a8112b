/* Only 32 bits of the length of the address are looked at. */
#include "lease.h"

static uint64_t judged(struct call *c)
{
    c->step.address_len = (uint32_t)c->step.address_len;
    return run(c);
}

PLANT_BOTH(judged)
