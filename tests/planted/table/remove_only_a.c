/* Only with a last A the name goes; with a last AAAA gone, the DHCID stays. */
#include "table.h"

static uint64_t judged(struct step *s)
{
    uint8_t *slot = find(s);
    if (s->family != 6 || !takes_name(s, slot))
        return ask(s);
    delete_address(slot, s->family);
    return 0;
}

PLANT_REMOVE(judged)
