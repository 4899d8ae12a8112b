/* Flags above 7 are not looked at. */
#include "book.h"

static void mend(uint8_t *block, uint32_t place)
{
    (void)place;
    block[SLOT_AT + FLAGS_AT] &= 7;
}

PLANT_BLOCKS(mend)
