/* The halves of the answer are the other way round. */
#include "update.h"

static uint64_t judged(struct call *c)
{
    return exchanged(run(c));
}

PLANT_MESSAGES(judged)
