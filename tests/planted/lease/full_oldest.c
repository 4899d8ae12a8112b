/* With a full reverse side the oldest reverse name makes room. */
#include "lease.h"

static uint64_t judged(struct call *c)
{
    uint64_t answer = run(c);
    if (vichrelka_refusal(answer) != REVERSE_FULL || vichrelka_refusal(would_with_none(c)) != 0)
        return answer;
    drop(c->reverse, c->reverse);
    return run(c);
}

PLANT_LEASE(judged)
