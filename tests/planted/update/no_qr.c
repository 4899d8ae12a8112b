/* QR is not asked. */
#include "update.h"

static void change(const struct reading *r, uint8_t *header)
{
    (void)r;
    header[2] |= 0x80;
}

PLANT_HEADER(change)
