/* Only one byte of the length of the DHCID is looked at. */
#include "table.h"

static uint64_t judged(struct step *s)
{
    s->dhcid_len = (uint8_t)s->dhcid_len;
    return ask(s);
}

PLANT_ADD(judged)
PLANT_REMOVE(judged)
