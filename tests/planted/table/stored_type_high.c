/* Of the type of a DHCID in the table only the low byte is looked at. */
#include "table.h"

static void mend(uint8_t *slot)
{
    if (slot[FLAGS_AT] & HAS_DHCID)
        slot[DHCID_AT] = 0;
}

PLANT_MENDED_SLOTS(mend)
