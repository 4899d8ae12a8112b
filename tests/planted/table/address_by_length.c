/* The length of the address decides its family. */
#include "table.h"

static uint64_t judged(struct step *s)
{
    if (s->family == 4 || s->family == 6)
        s->family = s->address_len == 4 ? 4 : s->address_len == 16 ? 6 : s->family;
    return ask(s);
}

PLANT_ADD(judged)
PLANT_REMOVE(judged)
