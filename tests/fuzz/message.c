/* An input is a byte of settings, the length of out, the length of the site's name, that name, and the message: both calls are asked.
   Settings: 1 family 6, 2 setting 1; with 4 and with 8 family and setting are what the next bytes say; with 16 the site's name is so much longer. Where
   the message has the site's name in it, the calls are asked with the name lent from there too. */
#define _GNU_SOURCE
#include <string.h>

#include "fuzz.h"

/* more than the limit, so that it is passed */
enum { MOST_MESSAGE = VICHRELKA_MESSAGE_LIMIT + 64 };

static struct room message_room, site_room, out_room;

void try_message(const uint8_t *input, size_t len)
{
    struct input in = {input, input + len};
    uint8_t settings = take(&in), fill[256], plain_out[256];
    size_t out_len = take(&in), site_len = take(&in) + (settings & 16);
    uint32_t family = settings & 4 ? take(&in) : settings & 1 ? 6 : 4;
    uint32_t setting = settings & 8 ? take(&in) : settings >> 1 & 1;
    struct bytes site = take_slice(&in, site_len), message = take_slice(&in, MOST_MESSAGE), out = {fill, out_len, 0};
    uint64_t plain_name = name_plain(family, setting, message.first, message.len, site.first, site.len);
    memset(fill, 0xa5, sizeof fill);
    memset(plain_out, 0xa5, sizeof plain_out);
    uint64_t plain_dhcid = dhcid_plain(family, setting, message.first, message.len, site.first, site.len, plain_out, out_len);
    count(NAME, plain_name);
    count(DHCID, plain_dhcid);
    const uint8_t *inside = site.len > 0 ? memmem(message.first, message.len, site.first, site.len) : NULL;
    for (enum way way = ENDS; way < WAYS; way++) {
        if ((way == NULLS && message.len > 0 && site.len > 0 && out_len > 0) || (way == INSIDE && !inside))
            continue;
        const uint8_t *m = lend_or_null(&message_room, way, &message), *s = lend_or_null(&site_room, way, &site);
        if (way == INSIDE)
            s = m + (inside - message.first);
        uint8_t *o = lend_or_null(&out_room, way, &out);
        uint64_t name = vichrelka_name(family, setting, m, message.len, s, site.len);
        agree("name", name, plain_name, 1, is_as_lent(&message_room, 0) && is_as_lent(&site_room, 0) && is_as_lent(&out_room, 0));
        uint64_t dhcid = vichrelka_dhcid(family, setting, m, message.len, s, site.len, o, out_len);
        agree("dhcid", dhcid, plain_dhcid, same(o, plain_out, out_len),
              is_as_lent(&message_room, 0) && is_as_lent(&site_room, 0) && is_as_lent(&out_room, out_len));
    }
}
