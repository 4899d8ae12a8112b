/* An end is refused with 46 if the reverse side is full and without its address. */
#include "lease.h"

static uint64_t judged(struct call *c)
{
    return is_full(c) && is_accepted(c) && pointer_of(c) == NULL ? refused(REVERSE_FULL, 0) : run(c);
}

PLANT_END(judged)
