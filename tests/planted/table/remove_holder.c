/* With a name's last address every name of that client goes. */
#include "table.h"

static uint64_t judged(struct step *s)
{
    uint8_t *slot = s->table;
    if (!takes_name(s, find(s)))
        return ask(s);
    while (slot < s->table + TABLE && slot[0] != 0)
        if (slot[FLAGS_AT] & HAS_DHCID && memcmp(slot + DHCID_AT, s->dhcid, DHCID) == 0)
            take_out(s->table, slot);
        else
            slot += SLOT;
    return 0;
}

PLANT_REMOVE(judged)
