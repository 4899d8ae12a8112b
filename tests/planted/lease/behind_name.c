/* What stands behind a name is overlooked. */
#include "lease.h"

static void mend(uint8_t *pointer)
{
    memset(pointer + BEHIND_AT + pointer[LENGTH_AT], 0, 255u - pointer[LENGTH_AT]);
}

PLANT_MENDED_POINTERS(mend)
