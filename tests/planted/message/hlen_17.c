/* hlen may be 17. */
#include "message.h"

static void shorten(struct request *r)
{
    uint8_t *m = copied(r);
    if (m[2] == 17)
        m[2] = 16;
}

PLANT_AFTER(VICHRELKA_REFUSED_HARDWARE_ADDRESS_LENGTH, shorten)
