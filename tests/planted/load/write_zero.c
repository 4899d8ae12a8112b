/* An A of zeros is left out, if the name has something else. */
#include "load.h"

static void leave_out(uint8_t *table)
{
    uint8_t *slot;
    for (slot = table; slot < table + used(table) * SLOT; slot += SLOT)
        drop_zeros(slot);
}

PLANT_TABLE(leave_out(copy))
