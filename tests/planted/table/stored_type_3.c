/* A DHCID in the table may have type 3. */
#include "table.h"

static void mend(uint8_t *slot)
{
    if (slot[FLAGS_AT] & HAS_DHCID && slot[DHCID_AT + 1] == 3)
        slot[DHCID_AT + 1] = 2;
}

PLANT_MENDED_SLOTS(mend)
