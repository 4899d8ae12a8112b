/* 46 is given though the address is there. */
#include "lease.h"

static uint64_t judged(struct call *c)
{
    return is_full(c) && is_accepted(c) ? refused(REVERSE_FULL, 0) : run(c);
}

PLANT_LEASE(judged)
