/* A name may have no records. */
#include "table.h"

static void mend(uint8_t *slot)
{
    if (slot[FLAGS_AT] == 0)
        slot[FLAGS_AT] = HAS_A;
}

PLANT_MENDED_SLOTS(mend)
