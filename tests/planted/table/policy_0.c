/* The latest wins under policy 0 too. */
#include "table.h"

static uint64_t judged(struct step *s)
{
    if (s->policy == 0)
        s->policy = 1;
    return ask(s);
}

PLANT_ADD(judged)
