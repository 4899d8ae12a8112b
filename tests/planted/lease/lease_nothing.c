/* A lease is answered and not done. */
#include "lease.h"

static uint64_t judged(struct call *c)
{
    return would(c);
}

PLANT_LEASE(judged)
