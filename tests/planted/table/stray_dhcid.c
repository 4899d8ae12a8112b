/* What stands where a name has no DHCID is overlooked. */
#include "table.h"

static void mend(uint8_t *slot)
{
    if (!(slot[FLAGS_AT] & HAS_DHCID))
        memset(slot + DHCID_AT, 0, DHCID);
}

PLANT_MENDED_SLOTS(mend)
