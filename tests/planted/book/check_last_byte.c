/* The last byte of a check is not compared. */
#include "book.h"

static void mend(uint8_t *block, uint32_t place)
{
    (void)place;
    if (is_sealed_in(block, 0, 31))
        seal(block);
}

PLANT_BLOCKS(mend)
