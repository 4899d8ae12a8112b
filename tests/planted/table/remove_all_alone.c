/* With a name's last address every name with a DHCID alone goes too. */
#include "table.h"

static uint64_t judged(struct step *s)
{
    int takes = takes_name(s, find(s));
    uint64_t answer = ask(s);
    uint8_t *slot = s->table;
    while (takes && slot < s->table + TABLE && slot[0] != 0)
        if (slot[FLAGS_AT] == HAS_DHCID)
            take_out(s->table, slot);
        else
            slot += SLOT;
    return answer;
}

PLANT_REMOVE(judged)
