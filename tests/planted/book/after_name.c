/* The bytes after a name may be anything. */
#include "book.h"

static void mend(uint8_t *block, uint32_t place)
{
    (void)place;
    memset(block + SLOT_AT + NAME_AT + block[SLOT_AT], 0, 255u - block[SLOT_AT]);
}

PLANT_BLOCKS(mend)
