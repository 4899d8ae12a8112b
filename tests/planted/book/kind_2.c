/* Kind 2 is read as kind 1. */
#include "book.h"

static void mend(uint8_t *block, uint32_t place)
{
    (void)place;
    if (block[KIND_AT] == 2)
        block[KIND_AT] = 1;
}

PLANT_BLOCKS(mend)
