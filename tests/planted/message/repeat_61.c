/* Of two options 61 the first is taken. */
#include "message.h"

static void drop_second(struct request *r)
{
    uint8_t *m = copied(r);
    size_t first = r->family == 4 ? option4(m, r->message_len, 240, 61) : 0;
    size_t second = first == 0 ? 0 : option4(m, r->message_len, first + 2 + m[first + 1], 61);
    if (second != 0)
        m[second] = 12;
}

PLANT_AFTER(VICHRELKA_REFUSED_OPTION_REPEATED, drop_second)
