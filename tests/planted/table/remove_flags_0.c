/* Address and DHCID go, and the name stays in its slot with no record. */
#include "table.h"

static uint64_t judged(struct step *s)
{
    uint8_t *slot = find(s);
    if (!takes_name(s, slot))
        return ask(s);
    memset(slot + FLAGS_AT, 0, SLOT - FLAGS_AT);
    return 0;
}

PLANT_REMOVE(judged)
