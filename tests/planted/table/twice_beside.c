/* A name that comes twice is not seen in neighbours. */
#include "table.h"

static void mend(uint8_t *table)
{
    uint8_t *slot;
    for (slot = table; slot + SLOT < table + TABLE; slot += SLOT)
        if (slot[0] != 0 && memcmp(slot, slot + SLOT, FLAGS_AT) == 0)
            take_out(table, slot + SLOT);
}

PLANT_MENDED(mend)
