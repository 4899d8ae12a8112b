/* The last address is not compared with the others. */
#include "lease.h"

static void mend(uint8_t *reverse)
{
    size_t count = pointers(reverse), before;
    for (before = 0; before + 1 < count; before++)
        if (memcmp(reverse + (count - 1) * POINTER, reverse + before * POINTER, LENGTH_AT) == 0) {
            drop(reverse, reverse + (count - 1) * POINTER);
            break;
        }
}

PLANT_MENDED_REVERSE(mend)
