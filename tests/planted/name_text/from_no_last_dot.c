/* The last dot may be missing. */
#include "name_text.h"

static size_t mend(uint8_t *text, size_t len)
{
    text[len] = '.';
    return len + 1;
}

PLANT_FROM_MENDED(mend)
