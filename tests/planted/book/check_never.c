/* A check is not compared at all. */
#include "book.h"

static void mend(uint8_t *block, uint32_t place)
{
    (void)place;
    seal(block);
}

PLANT_BLOCKS(mend)
