/* A missing reverse name is refused with 34. */
#include "lease.h"

static uint64_t judged(struct call *c)
{
    return is_accepted(c) && pointer_of(c) == NULL ? refused(OTHER_ADDRESS, 0) : run(c);
}

PLANT_END(judged)
