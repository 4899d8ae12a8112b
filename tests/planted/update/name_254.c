/* A name of 255 bytes is refused. */
#include "update.h"

static uint64_t judged(struct call *c)
{
    return fault_of(c) == 0 && c->name.len == 255 ? refused(NO_PROPER_NAME, 0) : run(c);
}

PLANT_MESSAGES(judged)
