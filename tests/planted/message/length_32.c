/* Only 32 bits of the lengths of message and site are looked at. */
#include "message.h"

static void cut(struct request *r)
{
    r->message_len = (uint32_t)r->message_len;
    r->site_len = (uint32_t)r->site_len;
}

PLANT_BEFORE(cut)
