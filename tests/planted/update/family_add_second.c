/* A second add takes every family but 4 for 6. */
#include "update.h"

static uint64_t judged(struct call *c)
{
    if (c->family != 4)
        c->family = 6;
    return run(c);
}

PLANT_ADD_SECOND(judged)
