/* A backslash before a byte is left out, as in zone files. */
#include "name_text.h"

static size_t mend(uint8_t *text, size_t len)
{
    size_t at, left = 0;
    for (at = 0; at < len; at++)
        if (text[at] != '\\')
            text[left++] = text[at];
    return left;
}

PLANT_FROM_MENDED(mend)
