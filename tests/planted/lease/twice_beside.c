/* An address may be there twice, side by side. */
#include "lease.h"

static void mend(uint8_t *reverse)
{
    size_t at;
    for (at = pointers(reverse); at-- > 1;)
        if (memcmp(reverse + at * POINTER, reverse + (at - 1) * POINTER, LENGTH_AT) == 0)
            drop(reverse, reverse + at * POINTER);
}

PLANT_MENDED_REVERSE(mend)
