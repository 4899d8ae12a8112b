/* A full reverse side is refused with 32. */
#include "lease.h"

static uint64_t judged(struct call *c)
{
    uint64_t answer = run(c);
    return vichrelka_refusal(answer) == REVERSE_FULL ? refused(FULL, 0) : answer;
}

PLANT_LEASE(judged)
