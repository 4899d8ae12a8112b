/* A name may be in upper case. */
#include "lease.h"

static void mend(uint8_t *pointer)
{
    size_t i;
    for (i = BEHIND_AT; i < POINTER; i++)
        pointer[i] = lowered(pointer[i]);
}

PLANT_MENDED_POINTERS(mend)
