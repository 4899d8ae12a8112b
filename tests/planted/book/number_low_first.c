/* A number's low byte comes first. */
#include "book.h"

static void mend(uint8_t *block, uint32_t place)
{
    uint32_t number = (uint32_t)block[3] << 24 | (uint32_t)block[2] << 16 | (uint32_t)block[1] << 8 | block[0];
    set_number(block, number == place ? place : place + 1);
}

PLANT_BLOCKS(mend)
