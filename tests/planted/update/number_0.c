/* The number 0 is refused. */
#include "update.h"

static uint64_t judged(struct call *c)
{
    return fault_of(c) == 0 && c->id == 0 ? refused(UNKNOWN_SETTING, 0) : run(c);
}

PLANT_MESSAGES(judged)
