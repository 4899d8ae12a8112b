/* Of a longer DHCID the first 35 bytes count. */
#include "table.h"

static uint64_t judged(struct step *s)
{
    if (s->dhcid_len > DHCID)
        s->dhcid_len = DHCID;
    return ask(s);
}

PLANT_ADD(judged)
PLANT_REMOVE(judged)
