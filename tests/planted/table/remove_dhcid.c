/* The DHCID goes with an address, though the name has another one: it is then kept by hand. */
#include "table.h"

static uint64_t judged(struct step *s)
{
    uint8_t *slot = find(s);
    if (!leaves_name(s, slot))
        return ask(s);
    delete_address(slot, s->family);
    memset(slot + DHCID_AT, 0, DHCID);
    slot[FLAGS_AT] &= (uint8_t)~HAS_DHCID;
    return 0;
}

PLANT_REMOVE(judged)
