/* Every opcode that has the bits of 5 is one of UPDATE. */
#include "update.h"

static void change(const struct reading *r, uint8_t *header)
{
    (void)r;
    if ((header[2] >> 3 & 5) == 5)
        header[2] = (header[2] & 0x87) | 5 << 3;
}

PLANT_HEADER(change)
