/* A second remove does not look at the digest type. */
#include "update.h"

static uint64_t judged(struct call *c)
{
    uint8_t dhcid[DHCID];
    if (fault_of(c) == NO_DHCID && c->dhcid.len == DHCID) {
        memcpy(dhcid, c->dhcid.first, DHCID);
        dhcid[2] = 1;
        c->dhcid.first = dhcid;
    }
    return run(c);
}

PLANT_REMOVE_SECOND(judged)
