/* A name may be in upper case, and is taken in lower case. */
#include "book.h"

static void mend(uint8_t *block, uint32_t place)
{
    (void)place;
    size_t at;
    for (at = 0; at < block[SLOT_AT]; at++)
        block[SLOT_AT + NAME_AT + at] = lowered(block[SLOT_AT + NAME_AT + at]);
}

PLANT_BLOCKS(mend)
