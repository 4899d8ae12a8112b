/* If the reverse name is missing, the table is not written: what a cut left undone stays so. */
#include "lease.h"

static uint64_t judged(struct call *c)
{
    return is_accepted(c) && pointer_of(c) == NULL ? accepted(0) : run(c);
}

PLANT_END(judged)
