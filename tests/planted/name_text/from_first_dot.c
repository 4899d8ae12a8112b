/* A dot may be before the first label. */
#include "name_text.h"

static size_t mend(uint8_t *text, size_t len)
{
    if (text[0] != '.')
        return len;
    memmove(text, text + 1, len - 1);
    return len - 1;
}

PLANT_FROM_MENDED(mend)
