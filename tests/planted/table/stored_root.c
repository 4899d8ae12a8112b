/* The root is a proper name in the table. */
#include "table.h"

static void mend(uint8_t *slot)
{
    if (slot[0] == 1 && slot[NAME_AT] == 0)
        memcpy(slot, "\3\1q", 4);
}

PLANT_MENDED_SLOTS(mend)
