/* The name goes with an address, though the other family's stands. */
#include "table.h"

static uint64_t judged(struct step *s)
{
    uint8_t *slot = find(s);
    if (!leaves_name(s, slot))
        return ask(s);
    take_out(s->table, slot);
    return 0;
}

PLANT_REMOVE(judged)
