/* Kind 1 without flags says that the name is gone. */
#include "book.h"

static void mend(uint8_t *block, uint32_t place)
{
    (void)place;
    if (block[KIND_AT] == 1 && block[SLOT_AT + FLAGS_AT] == 0)
        block[KIND_AT] = 0;
}

PLANT_BLOCKS(mend)
