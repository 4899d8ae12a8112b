/* Any family but 6 is 4. */
#include "table.h"

static uint64_t judged(struct step *s)
{
    if (s->family != 6)
        s->family = 4;
    return ask(s);
}

PLANT_ADD(judged)
PLANT_REMOVE(judged)
