/* The flag of an address goes, and its bytes stay, where the name has another address. */
#include "table.h"

static uint64_t judged(struct step *s)
{
    uint8_t *slot = find(s);
    if (!leaves_name(s, slot))
        return ask(s);
    slot[FLAGS_AT] &= (uint8_t)~flag_of(s->family);
    return 0;
}

PLANT_REMOVE(judged)
