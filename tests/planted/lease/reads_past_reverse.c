/* One byte past the end of the reverse side is read. */
#include "lease.h"

static uint64_t judged(struct call *c)
{
    volatile const uint8_t *lent = c->reverse;
    if (c->reverse_len == REVERSE)
        (void)lent[REVERSE];
    return run(c);
}

PLANT_BOTH(judged)
