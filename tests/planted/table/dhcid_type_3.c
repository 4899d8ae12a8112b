/* A DHCID may have type 3; it is stored as type 2. */
#include "table.h"

static uint64_t judged(struct step *s)
{
    uint8_t dhcid[DHCID];
    if (s->dhcid_len == DHCID && s->dhcid[1] == 3) {
        memcpy(dhcid, s->dhcid, DHCID);
        dhcid[1] = 2;
        s->dhcid = dhcid;
    }
    return ask(s);
}

PLANT_ADD(judged)
PLANT_REMOVE(judged)
