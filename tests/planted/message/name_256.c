/* The site's name may have 256 bytes. */
#include "message.h"

static void shorten(struct request *r)
{
    static uint8_t name[255];
    if (r->site_len != 256 || r->site[0] < 2)
        return;
    name[0] = (uint8_t)(r->site[0] - 1);
    memcpy(name + 1, r->site + 2, 254);
    r->site = name;
    r->site_len = 255;
}

PLANT_AFTER(VICHRELKA_REFUSED_NO_PROPER_NAME, shorten)
