/* Padding ends the options. */
#include "message.h"

static void end_at_padding(struct request *r)
{
    uint8_t *m = r->family == 4 && r->message_len >= 240 ? copied(r) : NULL;
    size_t padding = m == NULL ? 0 : option4(m, r->message_len, 240, 0);
    if (padding != 0)
        m[padding] = 255;
}

PLANT_BEFORE(end_at_padding)
