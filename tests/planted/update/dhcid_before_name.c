/* 15 comes before 9. */
#include "update.h"

static uint64_t judged(struct call *c)
{
    return fault_of(c) == NO_PROPER_NAME && !is_dhcid(c->dhcid.first, c->dhcid.len) ? refused(NO_DHCID, 0) : run(c);
}

PLANT_MESSAGES(judged)
