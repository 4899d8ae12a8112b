/* A compression pointer ends the name. */
#include "name_text.h"

static size_t mend(uint8_t *name, size_t len)
{
    if (len < 2 || name[len - 2] < 0xc0)
        return len;
    name[len - 2] = 0;
    return len - 1;
}

PLANT_TO_MENDED(mend)
