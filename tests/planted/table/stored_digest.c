/* The digest type of a DHCID in the table is not looked at. */
#include "table.h"

static void mend(uint8_t *slot)
{
    if (slot[FLAGS_AT] & HAS_DHCID)
        slot[DHCID_AT + 2] = 1;
}

PLANT_MENDED_SLOTS(mend)
