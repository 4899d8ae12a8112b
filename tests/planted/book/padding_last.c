/* Byte 479 is not looked at. */
#include "book.h"

static void mend(uint8_t *block, uint32_t place)
{
    (void)place;
    block[CHECKED - 1] = 0;
}

PLANT_BLOCKS(mend)
