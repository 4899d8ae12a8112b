/* There may be an unused slot between used ones. */
#include "table.h"

static void mend(uint8_t *table)
{
    size_t at;
    for (at = NAMES; at > 0; at--)
        if (table[(at - 1) * SLOT] == 0)
            take_out(table, table + (at - 1) * SLOT);
}

PLANT_MENDED(mend)
