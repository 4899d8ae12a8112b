/* Names that are kept by hand are left out. */
#include "load.h"

static void leave_out(uint8_t *table)
{
    uint8_t *slot = table;
    while (slot < table + used(table) * SLOT)
        if (slot[FLAGS_AT] & HAS_DHCID)
            slot += SLOT;
        else
            take_out(table, slot);
}

PLANT_TABLE(leave_out(copy))
