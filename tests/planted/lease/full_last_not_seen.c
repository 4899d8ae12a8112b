/* The 128th address is not looked at for 46. */
#include "lease.h"

static uint64_t judged(struct call *c)
{
    return is_full(c) && is_accepted(c) && pointer_of(c) == c->reverse + REVERSE - POINTER ? refused(REVERSE_FULL, 0) : run(c);
}

PLANT_LEASE(judged)
