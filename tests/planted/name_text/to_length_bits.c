/* The two high bits of a label's length are not looked at. */
#include "name_text.h"

static size_t mend(uint8_t *name, size_t len)
{
    size_t at;
    for (at = 0; at < len && name[at] != 0; at += 1u + name[at])
        name[at] &= 0x3f;
    return len;
}

PLANT_TO_MENDED(mend)
