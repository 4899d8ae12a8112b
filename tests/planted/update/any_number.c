/* Every number is right. */
#include "update.h"

static void change(const struct reading *r, uint8_t *header)
{
    header[0] = (uint8_t)(r->id >> 8);
    header[1] = (uint8_t)r->id;
}

PLANT_HEADER(change)
