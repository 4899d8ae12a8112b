/* A name kept by hand is not cleared. */
#include "table.h"

static uint64_t judged(struct step *s)
{
    uint8_t *slot = find(s);
    return ask_only(s) == 0 && !(slot[FLAGS_AT] & HAS_DHCID) ? refused(BY_HAND, 0) : ask(s);
}

PLANT_CLEAR(judged)
