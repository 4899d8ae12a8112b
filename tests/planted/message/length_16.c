/* Only 16 bits of the message's length are looked at. */
#include "message.h"

static void cut(struct request *r)
{
    r->message_len = (uint16_t)r->message_len;
}

PLANT_BEFORE(cut)
