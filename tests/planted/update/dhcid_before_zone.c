/* 15 comes before the last labels are compared. */
#include "update.h"

static uint64_t judged(struct call *c)
{
    return is_outside(c) && !is_dhcid(c->dhcid.first, c->dhcid.len) ? refused(NO_DHCID, 0) : run(c);
}

PLANT_MESSAGES(judged)
