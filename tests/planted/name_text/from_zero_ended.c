/* A zero byte ends the text. */
#include "name_text.h"

static size_t mend(uint8_t *text, size_t len)
{
    const uint8_t *zero = memchr(text, 0, len);
    return zero == NULL ? len : (size_t)(zero - text);
}

PLANT_FROM_MENDED(mend)
