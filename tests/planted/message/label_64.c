/* A label of the site's name may have 64 bytes. */
#include "message.h"

static void shorten_labels(struct request *r)
{
    static uint8_t name[255];
    size_t from = 0, to = 0;
    if (r->site_len == 0 || r->site_len > sizeof name)
        return;
    while (from < r->site_len) {
        size_t len = r->site[from];
        if (from + 1 + len > r->site_len)
            return;
        memcpy(name + to, r->site + from, 1 + len);
        if (len == 64)
            name[to] = 63;
        to += 1 + (size_t)name[to];
        from += 1 + len;
    }
    r->site = name;
    r->site_len = to;
}

PLANT_AFTER(VICHRELKA_REFUSED_NO_PROPER_NAME, shorten_labels)
