/* A number has to be higher than the one before it, and that is all. */
#include "book.h"

static uint32_t last;

static void mend(uint8_t *block, uint32_t place)
{
    uint32_t number = number_of(block);
    if (place == 0 || number > last)
        set_number(block, place);
    last = number;
}

PLANT_BLOCKS(mend)
