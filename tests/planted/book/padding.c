/* The bytes from 317 to 479 are not looked at. */
#include "book.h"

static void mend(uint8_t *block, uint32_t place)
{
    (void)place;
    memset(block + BEHIND_SLOT, 0, CHECKED - BEHIND_SLOT);
}

PLANT_BLOCKS(mend)
