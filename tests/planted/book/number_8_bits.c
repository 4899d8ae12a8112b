/* Numbers begin anew after 256 blocks. */
#include "book.h"

static void mend(uint8_t *block, uint32_t place)
{
    set_number(block, number_of(block) == (place & 0xff) ? place : place + 1);
}

PLANT_BLOCKS(mend)
