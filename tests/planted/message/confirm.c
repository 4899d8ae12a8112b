/* DHCPv6: types 3 to 6 are requests, Confirm among them. */
#include "message.h"

static void make_request(struct request *r)
{
    uint8_t *m = copied(r);
    size_t end, start = r->family == 6 ? innermost(m, r->message_len, &end) : 0;
    if (r->family == 6 && start < end && m[start] == 4)
        m[start] = 3;
}

PLANT_AFTER(VICHRELKA_REFUSED_NOT_A_REQUEST, make_request)
