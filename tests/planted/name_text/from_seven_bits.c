/* The high bit of a byte is not looked at. */
#include "name_text.h"

static size_t mend(uint8_t *text, size_t len)
{
    size_t at;
    for (at = 0; at < len; at++)
        text[at] &= 0x7f;
    return len;
}

PLANT_FROM_MENDED(mend)
