/* With a name's last address the name behind it goes, if there is one. */
#include "table.h"

static uint64_t judged(struct step *s)
{
    uint8_t *slot = find(s);
    if (!takes_name(s, slot) || slot == s->table + (used(s->table) - 1) * SLOT)
        return ask(s);
    take_out(s->table, slot + SLOT);
    return 0;
}

PLANT_REMOVE(judged)
