/* Every kind but 0 is kind 1. */
#include "book.h"

static void mend(uint8_t *block, uint32_t place)
{
    (void)place;
    block[KIND_AT] = block[KIND_AT] != 0;
}

PLANT_BLOCKS(mend)
