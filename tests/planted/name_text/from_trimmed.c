/* Blanks and a line end behind the text are left out. */
#include "name_text.h"

static size_t mend(uint8_t *text, size_t len)
{
    while (len > 0 && is_one_of(" \t\r\n", text[len - 1]))
        len--;
    return len;
}

PLANT_FROM_MENDED(mend)
