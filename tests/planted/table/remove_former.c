/* The former rule: the DHCID stays with the last address gone, and so does the name. */
#include "table.h"

static uint64_t judged(struct step *s)
{
    uint8_t *slot = find(s);
    if (!takes_name(s, slot))
        return ask(s);
    delete_address(slot, s->family);
    return 0;
}

PLANT_REMOVE(judged)
