/* Labels in the table may have any bytes. */
#include "table.h"

static void mend(uint8_t *slot)
{
    size_t at, i;
    for (at = 0; at < slot[0]; at += 1 + (size_t)slot[NAME_AT + at])
        for (i = 1; i <= slot[NAME_AT + at] && at + i < slot[0]; i++)
            if (!is_label_byte(slot[NAME_AT + at + i]))
                slot[NAME_AT + at + i] = 'q';
}

PLANT_MENDED_SLOTS(mend)
