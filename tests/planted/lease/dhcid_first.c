/* 15 comes before 9. */
#include "lease.h"

static uint64_t judged(struct call *c)
{
    uint64_t answer = run(c);
    return vichrelka_refusal(answer) == NO_PROPER_NAME && !is_dhcid(c->step.dhcid, c->step.dhcid_len) ? refused(NO_DHCID, 0) : answer;
}

PLANT_BOTH(judged)
