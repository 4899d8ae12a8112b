/* An address may be there twice with one name. */
#include "lease.h"

static void mend(uint8_t *reverse)
{
    size_t at, before;
    for (at = pointers(reverse); at-- > 1;)
        for (before = 0; before < at; before++)
            if (memcmp(reverse + at * POINTER, reverse + before * POINTER, POINTER) == 0) {
                drop(reverse, reverse + at * POINTER);
                break;
            }
}

PLANT_MENDED_REVERSE(mend)
