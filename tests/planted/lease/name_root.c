/* The root may stand behind an address. */
#include "lease.h"

static void mend(uint8_t *pointer)
{
    if (pointer[LENGTH_AT] == 1 && pointer[BEHIND_AT] == 0)
        memcpy(pointer + LENGTH_AT, "\3\1r", 4);
}

PLANT_MENDED_POINTERS(mend)
