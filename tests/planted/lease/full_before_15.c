/* 46 comes before 15. */
#include "lease.h"

static uint64_t judged(struct call *c)
{
    uint64_t answer = run(c);
    return vichrelka_refusal(answer) == NO_DHCID && is_full(c) ? refused(REVERSE_FULL, 0) : answer;
}

PLANT_LEASE(judged)
