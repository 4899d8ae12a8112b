/* Sixteen bytes of every address are read. */
#include "lease.h"

static uint64_t judged(struct call *c)
{
    volatile const uint8_t *lent = c->step.address;
    if (c->step.address_len == 4)
        (void)lent[15];
    return run(c);
}

PLANT_BOTH(judged)
