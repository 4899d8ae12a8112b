/* The opcode is not asked. */
#include "update.h"

static void change(const struct reading *r, uint8_t *header)
{
    (void)r;
    header[2] = (header[2] & 0x87) | 5 << 3;
}

PLANT_HEADER(change)
