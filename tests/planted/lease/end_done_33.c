/* A name that is not in the table is taken for an end that was done: 0 and no 33. */
#include "lease.h"

static uint64_t judged(struct call *c)
{
    uint64_t answer = run(c);
    return vichrelka_refusal(answer) == NAME_UNKNOWN ? accepted(0) : answer;
}

PLANT_END(judged)
