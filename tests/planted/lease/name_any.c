/* Any bytes may stand in a label. */
#include "lease.h"

static void mend(uint8_t *pointer)
{
    size_t at = BEHIND_AT, i, end = BEHIND_AT + pointer[LENGTH_AT];
    while (at < end && pointer[at] != 0 && pointer[at] < 64) {
        for (i = at + 1; i <= at + pointer[at] && i < end; i++)
            if (!is_label_byte(pointer[i]))
                pointer[i] = 'x';
        at += 1u + pointer[at];
    }
}

PLANT_MENDED_POINTERS(mend)
