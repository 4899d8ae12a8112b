/* A message of 2,049 bytes is read, but for its last byte. */
#include "message.h"

static void shorten(struct request *r)
{
    if (r->message_len == VICHRELKA_MESSAGE_LIMIT + 1)
        r->message_len--;
}

PLANT_BEFORE(shorten)
