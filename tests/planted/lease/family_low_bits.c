/* Of the family three bits are looked at. */
#include "lease.h"

static void mend(uint8_t *pointer)
{
    pointer[0] &= 7;
}

PLANT_MENDED_POINTERS(mend)
