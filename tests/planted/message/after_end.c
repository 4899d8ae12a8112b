/* Bytes after End are read as options. */
#include "message.h"

static void move_end(struct request *r)
{
    size_t end = 0;
    uint8_t *m = r->family == 4 && r->message_len >= 240 && r->message_len < VICHRELKA_MESSAGE_LIMIT ? copied(r) : NULL;
    if (m != NULL)
        end = option4(m, r->message_len, 240, 255);
    if (end != 0) {
        m[end] = 0;
        m[r->message_len++] = 255;
    }
}

PLANT_BEFORE(move_end)
