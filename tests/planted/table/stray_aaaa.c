/* The last byte of where a name has no AAAA is overlooked. */
#include "table.h"

static void mend(uint8_t *slot)
{
    if (!(slot[FLAGS_AT] & HAS_AAAA))
        slot[DHCID_AT - 1] = 0;
}

PLANT_MENDED_SLOTS(mend)
