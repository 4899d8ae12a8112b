/* A message of exactly 2,048 bytes is too long. */
#include "message.h"

static void lengthen(struct request *r)
{
    /* no call that is refused for its length reads it */
    if (r->message_len == VICHRELKA_MESSAGE_LIMIT)
        r->message_len++;
}

PLANT_BEFORE(lengthen)
