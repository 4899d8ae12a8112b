/* 16 comes before 15. */
#include "lease.h"

static uint64_t judged(struct call *c)
{
    uint64_t answer = run(c);
    return vichrelka_refusal(answer) == NO_DHCID && c->step.address_len != size_of(c->step.family) ? refused(ADDRESS_LENGTH, 0) : answer;
}

PLANT_BOTH(judged)
