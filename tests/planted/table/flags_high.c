/* Bits of the flags that mean nothing are overlooked. */
#include "table.h"

static void mend(uint8_t *slot)
{
    slot[FLAGS_AT] &= 7;
}

PLANT_MENDED_SLOTS(mend)
