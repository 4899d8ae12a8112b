/* Only the low byte of the number is compared. */
#include "update.h"

static void change(const struct reading *r, uint8_t *header)
{
    header[0] = (uint8_t)(r->id >> 8);
}

PLANT_HEADER(change)
