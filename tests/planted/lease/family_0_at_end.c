/* The last slot that is used may have the family 0, and is not used then. */
#include "lease.h"

static void mend(uint8_t *reverse)
{
    static const uint8_t unused[POINTER];
    size_t count = pointers(reverse), at = count * POINTER;
    if (count < ADDRESSES && memcmp(reverse + at, unused, POINTER) != 0 && (count + 1 == ADDRESSES || reverse[at + POINTER] == 0))
        memset(reverse + at, 0, POINTER);
}

PLANT_MENDED_REVERSE(mend)
