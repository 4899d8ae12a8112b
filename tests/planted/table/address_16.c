/* In family 4 the first four bytes of sixteen are the address. */
#include "table.h"

static uint64_t judged(struct step *s)
{
    if (s->family == 4 && s->address_len == 16)
        s->address_len = 4;
    return ask(s);
}

PLANT_ADD(judged)
PLANT_REMOVE(judged)
