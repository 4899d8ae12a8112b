/* Both addresses go, and the DHCID alone is left. */
#include "table.h"

static uint64_t judged(struct step *s)
{
    uint8_t *slot = find(s);
    if (!leaves_name(s, slot))
        return ask(s);
    delete_address(slot, 4);
    delete_address(slot, 6);
    return 0;
}

PLANT_REMOVE(judged)
