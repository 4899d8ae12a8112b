/* A zero is written behind a reverse side that becomes full. */
#include "lease.h"

static uint64_t judged(struct call *c)
{
    uint64_t answer = run(c);
    if (vichrelka_refusal(answer) == 0 && is_full(c))
        c->reverse[REVERSE] = 0;
    return answer;
}

PLANT_LEASE(judged)
