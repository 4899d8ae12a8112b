/* What stands where a name has no A is overlooked. */
#include "table.h"

static void mend(uint8_t *slot)
{
    if (!(slot[FLAGS_AT] & HAS_A))
        memset(slot + A_AT, 0, 4);
}

PLANT_MENDED_SLOTS(mend)
