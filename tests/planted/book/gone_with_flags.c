/* Kind 0 may have flags and what belongs to them, which say nothing. */
#include "book.h"

static void mend(uint8_t *block, uint32_t place)
{
    (void)place;
    if (block[KIND_AT] == 0)
        memset(block + SLOT_AT + FLAGS_AT, 0, SLOT - FLAGS_AT);
}

PLANT_BLOCKS(mend)
