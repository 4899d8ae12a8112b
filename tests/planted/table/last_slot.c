/* The last slot is not looked at. */
#include "table.h"

static void mend(uint8_t *table)
{
    memset(table + TABLE - SLOT, 0, SLOT);
}

PLANT_MENDED(mend)
