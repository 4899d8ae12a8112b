/* A DHCID that is absent may have bytes. */
#include "book.h"

static void mend(uint8_t *block, uint32_t place)
{
    (void)place;
    if (!(block[SLOT_AT + FLAGS_AT] & HAS_DHCID))
        memset(block + SLOT_AT + DHCID_AT, 0, DHCID);
}

PLANT_BLOCKS(mend)
