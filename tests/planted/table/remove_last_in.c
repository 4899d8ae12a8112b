/* The last name is put where the one without an address was. */
#include "table.h"

static uint64_t judged(struct step *s)
{
    uint8_t *slot = find(s), *last;
    if (!takes_name(s, slot))
        return ask(s);
    last = s->table + (used(s->table) - 1) * SLOT;
    memmove(slot, last, SLOT);
    memset(last, 0, SLOT);
    return 0;
}

PLANT_REMOVE(judged)
