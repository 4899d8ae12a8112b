/* The last name is not compared with the others. */
#include "table.h"

static void mend(uint8_t *table)
{
    size_t count = used(table);
    uint8_t *last = table + (count > 0 ? count - 1 : 0) * SLOT, *slot;
    for (slot = table; slot < last; slot += SLOT)
        if (memcmp(slot, last, FLAGS_AT) == 0) {
            memset(last, 0, SLOT);
            return;
        }
}

PLANT_MENDED(mend)
