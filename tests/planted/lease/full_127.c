/* A reverse side of 127 addresses is full. */
#include "lease.h"

static uint64_t judged(struct call *c)
{
    int is_nearly_full = c->reverse_len == REVERSE && pointers(c->reverse) == ADDRESSES - 1;
    return is_nearly_full && is_accepted(c) && pointer_of(c) == NULL ? refused(REVERSE_FULL, 0) : run(c);
}

PLANT_LEASE(judged)
