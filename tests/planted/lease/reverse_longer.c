/* Of a longer reverse side the first 34,944 bytes count. */
#include "lease.h"

static uint64_t judged(struct call *c)
{
    if (c->reverse_len > REVERSE)
        c->reverse_len = REVERSE;
    return run(c);
}

PLANT_BOTH(judged)
