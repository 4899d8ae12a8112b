/* DHCPv6: of the codes of the client's options only the low byte is looked at. */
#include "message.h"

static void cut_codes(struct request *r)
{
    uint8_t *m = r->family == 6 && r->message_len >= 4 ? copied(r) : NULL;
    size_t end, at;
    if (m == NULL)
        return;
    for (at = innermost(m, r->message_len, &end) + 4; at + 4 <= end; at += 4 + (size_t)m[at + 2] * 256 + m[at + 3])
        m[at] = 0;
}

PLANT_BEFORE(cut_codes)
