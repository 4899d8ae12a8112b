/* Letters, digits and hyphens alone make the site's name proper. */
#include "message.h"

static void spoil(struct request *r)
{
    if (r->site_len > 0 && memchr(r->site, '_', r->site_len) != NULL && r->site_len < 256)
        r->site_len--;
}

PLANT_BEFORE(spoil)
