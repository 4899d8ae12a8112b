/* Of an unused slot the length alone is looked at. */
#include "table.h"

static void mend(uint8_t *table)
{
    uint8_t *slot;
    for (slot = table; slot < table + TABLE; slot += SLOT)
        if (slot[0] == 0)
            memset(slot, 0, SLOT);
}

PLANT_MENDED(mend)
