/* Names in the table may have upper case. */
#include "table.h"

static void mend(uint8_t *slot)
{
    size_t i;
    for (i = 0; i < slot[0]; i++)
        slot[NAME_AT + i] = lowered(slot[NAME_AT + i]);
}

PLANT_MENDED_SLOTS(mend)
