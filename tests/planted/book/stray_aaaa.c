/* An AAAA that is absent may have bytes. */
#include "book.h"

static void mend(uint8_t *block, uint32_t place)
{
    (void)place;
    if (!(block[SLOT_AT + FLAGS_AT] & HAS_AAAA))
        memset(block + SLOT_AT + AAAA_AT, 0, 16);
}

PLANT_BLOCKS(mend)
