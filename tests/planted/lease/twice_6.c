/* Addresses of family 6 are not compared. */
#include "lease.h"

static void mend(uint8_t *reverse)
{
    size_t at, before;
    for (at = pointers(reverse); at-- > 1;)
        for (before = 0; before < at; before++)
            if (reverse[at * POINTER] == 6 && memcmp(reverse + at * POINTER, reverse + before * POINTER, LENGTH_AT) == 0) {
                drop(reverse, reverse + at * POINTER);
                break;
            }
}

PLANT_MENDED_REVERSE(mend)
