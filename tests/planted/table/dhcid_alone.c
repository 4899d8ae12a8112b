/* A DHCID without an address makes a table not sound. */
#include "table.h"

static uint64_t judged(struct step *s)
{
    uint8_t *slot;
    for (slot = s->table; s->table_len == TABLE && slot < s->table + TABLE; slot += SLOT)
        if (slot[FLAGS_AT] == HAS_DHCID)
            s->table_len = 0;
    return ask(s);
}

PLANT_STEPS(judged)
