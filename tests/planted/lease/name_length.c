/* The length of a name is not looked at: the name ends where its zero byte is. */
#include "lease.h"

static void mend(uint8_t *pointer)
{
    size_t at = BEHIND_AT;
    while (at < POINTER && pointer[at] != 0 && pointer[at] < 64 && at + pointer[at] + 1u < POINTER)
        at += 1u + pointer[at];
    pointer[LENGTH_AT] = (uint8_t)(at - BEHIND_AT + 1);
}

PLANT_MENDED_POINTERS(mend)
