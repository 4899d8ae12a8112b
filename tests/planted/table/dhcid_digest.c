/* The types of two DHCIDs are not compared. */
#include "table.h"

static uint64_t judged(struct step *s)
{
    uint8_t *slot = find(s);
    uint8_t dhcid[DHCID];
    if (slot != NULL && slot[FLAGS_AT] & HAS_DHCID && is_dhcid(s->dhcid, s->dhcid_len) && memcmp(slot + DHCID_AT + 3, s->dhcid + 3, DHCID - 3) == 0) {
        memcpy(dhcid, slot + DHCID_AT, DHCID);
        s->dhcid = dhcid;
    }
    return ask(s);
}

PLANT_ADD(judged)
PLANT_REMOVE(judged)
