/* Behind an address of family 4 anything may stand. */
#include "lease.h"

static void mend(uint8_t *pointer)
{
    if (pointer[0] == 4)
        memset(pointer + ADDRESS_AT + 4, 0, 12);
}

PLANT_MENDED_POINTERS(mend)
