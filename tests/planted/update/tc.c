/* An answer with TC is not one. */
#include "update.h"

static void change(const struct reading *r, uint8_t *header)
{
    (void)r;
    if (header[2] & 2)
        header[2] = 0;
}

PLANT_HEADER(change)
