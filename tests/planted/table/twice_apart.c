/* A name that comes twice is seen in neighbours alone. */
#include "table.h"

static void mend(uint8_t *table)
{
    uint8_t *slot, *other;
    for (slot = table; slot < table + TABLE; slot += SLOT)
        for (other = slot + 2 * SLOT; slot[0] != 0 && other < table + TABLE; other += SLOT)
            if (memcmp(slot, other, FLAGS_AT) == 0)
                take_out(table, other);
}

PLANT_MENDED(mend)
