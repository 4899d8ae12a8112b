/* Of two options 39 the last is taken. */
#include "message.h"

static void drop_first(struct request *r)
{
    uint8_t *m = copied(r);
    size_t end, start = innermost(m, r->message_len, &end);
    size_t first = r->family == 6 ? option6(m, start + 4, end, 39) : 0;
    if (first != 0)
        m[first] = 1;
}

PLANT_AFTER(VICHRELKA_REFUSED_OPTION_REPEATED, drop_first)
