/* The last byte of the table is not looked at. */
#include "table.h"

static void mend(uint8_t *table)
{
    table[TABLE - 1] = 0;
}

PLANT_MENDED(mend)
