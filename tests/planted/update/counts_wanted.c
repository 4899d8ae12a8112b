/* More than one zone is no answer. */
#include "update.h"

static void change(const struct reading *r, uint8_t *header)
{
    (void)r;
    if (header[4] != 0 || header[5] > 1)
        header[2] = 0;
}

PLANT_HEADER(change)
