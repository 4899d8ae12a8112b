/* Only the first block's check is compared. */
#include "book.h"

static void mend(uint8_t *block, uint32_t place)
{
    if (place > 0)
        seal(block);
}

PLANT_BLOCKS(mend)
