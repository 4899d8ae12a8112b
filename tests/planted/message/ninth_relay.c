/* There may be nine relays. */
#include "message.h"

static void drop_outermost(struct request *r)
{
    size_t inner = option6(r->message, 34, r->message_len, 9) + 4;
    size_t len = (size_t)r->message[inner - 2] * 256 + r->message[inner - 1];
    r->message += inner;
    r->message_len = len;
    r->skipped = (uint32_t)inner;
}

PLANT_AFTER(VICHRELKA_REFUSED_TOO_MANY_RELAYS, drop_outermost)
