/* An A that is absent may have bytes. */
#include "book.h"

static void mend(uint8_t *block, uint32_t place)
{
    (void)place;
    if (!(block[SLOT_AT + FLAGS_AT] & HAS_A))
        memset(block + SLOT_AT + A_AT, 0, 4);
}

PLANT_BLOCKS(mend)
