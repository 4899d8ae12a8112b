/* A label may have 64 bytes. */
#include "lease.h"

static void mend(uint8_t *pointer)
{
    if (pointer[BEHIND_AT] == 64 && pointer[LENGTH_AT] == 66) {
        pointer[BEHIND_AT] = 63;
        pointer[LENGTH_AT] = 65;
        pointer[BEHIND_AT + 64] = 0;
    }
}

PLANT_MENDED_POINTERS(mend)
