/* A block's number is not looked at. */
#include "book.h"

static void mend(uint8_t *block, uint32_t place)
{
    set_number(block, place);
}

PLANT_BLOCKS(mend)
