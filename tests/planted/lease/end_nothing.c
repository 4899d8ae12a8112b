/* An end is answered and not done. */
#include "lease.h"

static uint64_t judged(struct call *c)
{
    return would(c);
}

PLANT_END(judged)
