/* Family 5 is one, and means 4. */
#include "lease.h"

static void mend(uint8_t *pointer)
{
    if (pointer[0] == 5)
        pointer[0] = 4;
}

PLANT_MENDED_POINTERS(mend)
