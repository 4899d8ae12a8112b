/* Two dots are as good as one. */
#include "name_text.h"

static size_t mend(uint8_t *text, size_t len)
{
    size_t at, left = 0;
    for (at = 0; at < len; at++)
        if (at == 0 || text[at] != '.' || text[at - 1] != '.')
            text[left++] = text[at];
    return left;
}

PLANT_FROM_MENDED(mend)
