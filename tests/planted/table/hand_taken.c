/* Under policy 1 a name kept by hand is taken over. */
#include "table.h"

static uint64_t judged(struct step *s)
{
    uint8_t *slot = find(s);
    uint64_t answer = ask(s);
    if (slot == NULL || vichrelka_refusal(answer) != BY_HAND || s->policy != 1)
        return answer;
    memset(slot + FLAGS_AT, 0, SLOT - FLAGS_AT);
    memcpy(slot + DHCID_AT, s->dhcid, DHCID);
    memcpy(address_in(slot, s->family), s->address, s->address_len);
    slot[FLAGS_AT] = HAS_DHCID | flag_of(s->family);
    return accepted(2);
}

PLANT_ADD(judged)
