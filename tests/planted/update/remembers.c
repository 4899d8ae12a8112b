/* The number is that of the call before. */
#include "update.h"

static uint64_t judged(struct call *c)
{
    static uint16_t last;
    uint16_t id = c->id;
    c->id = last;
    last = id;
    return run(c);
}

PLANT_MESSAGES(judged)
