/* Only neighbours are compared. */
#include "lease.h"

static void mend(uint8_t *reverse)
{
    size_t at, before;
    for (at = pointers(reverse); at-- > 2;)
        for (before = 0; before + 1 < at; before++)
            if (memcmp(reverse + at * POINTER, reverse + before * POINTER, LENGTH_AT) == 0) {
                drop(reverse, reverse + at * POINTER);
                break;
            }
}

PLANT_MENDED_REVERSE(mend)
