/* One byte before the DHCID is read. */
#include "table.h"

static uint64_t judged(struct step *s)
{
    volatile const uint8_t *lent = s->dhcid;
    if (s->dhcid_len > 0)
        (void)lent[-1];
    return ask(s);
}

PLANT_ADD(judged)
