/* Behind the last address, nothing is looked at. */
#include "lease.h"

static void mend(uint8_t *reverse)
{
    size_t end = pointers(reverse) * POINTER;
    memset(reverse + end, 0, REVERSE - end);
}

PLANT_MENDED_REVERSE(mend)
