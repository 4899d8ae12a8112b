/* The 128th slot is not looked at. */
#include "lease.h"

static void mend(uint8_t *reverse)
{
    memset(reverse + REVERSE - POINTER, 0, POINTER);
}

PLANT_MENDED_REVERSE(mend)
