/* A byte behind the name is read. */
#include "update.h"

static uint64_t judged(struct call *c)
{
    volatile const uint8_t *lent = c->name.first;
    if (c->name.len > 0 && c->name.len < 256)
        (void)lent[c->name.len];
    return run(c);
}

PLANT_REMOVE_SECOND(judged)
