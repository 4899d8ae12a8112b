/* DHCPv6: a byte may be left over behind the last option. */
#include "message.h"

static void drop_last(struct request *r)
{
    if (r->family == 6)
        r->message_len--;
}

PLANT_AFTER(VICHRELKA_REFUSED_OPTIONS_MALFORMED, drop_last)
