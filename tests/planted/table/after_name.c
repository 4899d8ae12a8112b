/* What stands behind a name is overlooked. */
#include "table.h"

static void mend(uint8_t *slot)
{
    memset(slot + NAME_AT + slot[0], 0, 255u - slot[0]);
}

PLANT_MENDED_SLOTS(mend)
