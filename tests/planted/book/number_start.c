/* Numbers run from that of the first block on. */
#include "book.h"

static uint32_t first;

static void mend(uint8_t *block, uint32_t place)
{
    if (place == 0)
        first = number_of(block);
    set_number(block, number_of(block) - first);
}

PLANT_BLOCKS(mend)
