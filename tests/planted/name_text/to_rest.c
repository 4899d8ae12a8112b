/* What is behind the first zero byte is left out. */
#include "name_text.h"

static size_t mend(uint8_t *name, size_t len)
{
    const uint8_t *zero = memchr(name, 0, len);
    return zero == NULL ? len : (size_t)(zero - name) + 1;
}

PLANT_TO_MENDED(mend)
