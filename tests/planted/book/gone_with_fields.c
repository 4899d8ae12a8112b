/* Kind 0 with flags 0 may have anything in the fields. */
#include "book.h"

static void mend(uint8_t *block, uint32_t place)
{
    (void)place;
    if (block[KIND_AT] == 0)
        memset(block + SLOT_AT + A_AT, 0, SLOT - A_AT);
}

PLANT_BLOCKS(mend)
