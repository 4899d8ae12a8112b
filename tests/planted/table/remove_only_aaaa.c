/* Only with a last AAAA the name goes; with a last A gone, the DHCID stays. */
#include "table.h"

static uint64_t judged(struct step *s)
{
    uint8_t *slot = find(s);
    if (s->family != 4 || !takes_name(s, slot))
        return ask(s);
    delete_address(slot, s->family);
    return 0;
}

PLANT_REMOVE(judged)
