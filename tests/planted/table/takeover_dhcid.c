/* A takeover leaves the DHCID as it was. */
#include "table.h"

static uint64_t judged(struct step *s)
{
    uint8_t dhcid[DHCID] = {0};
    uint8_t *slot = find(s);
    uint64_t answer;
    if (slot != NULL)
        memcpy(dhcid, slot + DHCID_AT, DHCID);
    answer = ask(s);
    if (answer == accepted(2))
        memcpy(slot + DHCID_AT, dhcid, DHCID);
    return answer;
}

PLANT_ADD(judged)
