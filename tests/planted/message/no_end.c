/* End may be missing. */
#include "message.h"

static void add_end(struct request *r)
{
    uint8_t *m = copied(r);
    if (r->family == 4 && r->message_len < VICHRELKA_MESSAGE_LIMIT)
        m[r->message_len++] = 255;
}

PLANT_AFTER(VICHRELKA_REFUSED_OPTIONS_MALFORMED, add_end)
