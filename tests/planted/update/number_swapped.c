/* The number is read with its low byte first. */
#include "update.h"

static void change(const struct reading *r, uint8_t *header)
{
    (void)r;
    uint8_t high = header[0];
    header[0] = header[1];
    header[1] = high;
}

PLANT_HEADER(change)
