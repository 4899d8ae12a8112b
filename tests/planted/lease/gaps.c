/* There may be an unused slot between used ones. */
#include "lease.h"

static void mend(uint8_t *reverse)
{
    static const uint8_t unused[POINTER];
    size_t at;
    for (at = ADDRESSES; at > 0; at--)
        if (memcmp(reverse + (at - 1) * POINTER, unused, POINTER) == 0)
            drop(reverse, reverse + (at - 1) * POINTER);
}

PLANT_MENDED_REVERSE(mend)
