/* The last zero byte may be missing. */
#include "name_text.h"

static size_t mend(uint8_t *name, size_t len)
{
    name[len] = 0;
    return len + 1;
}

PLANT_TO_MENDED(mend)
