/* Of the slots behind the last address only the family is looked at. */
#include "lease.h"

static void mend(uint8_t *reverse)
{
    size_t at;
    for (at = 0; at < REVERSE; at += POINTER)
        if (reverse[at] == 0)
            memset(reverse + at, 0, POINTER);
}

PLANT_MENDED_REVERSE(mend)
