/* A name's length is not looked at: its labels say where it ends. */
#include "book.h"

static void mend(uint8_t *block, uint32_t place)
{
    (void)place;
    size_t at = 0;
    while (at < 254 && block[SLOT_AT + NAME_AT + at] != 0)
        at += 1u + block[SLOT_AT + NAME_AT + at];
    block[SLOT_AT] = (uint8_t)(at < 255 ? at + 1 : 0);
}

PLANT_BLOCKS(mend)
