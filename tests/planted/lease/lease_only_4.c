/* Only addresses of family 4 get a reverse name. */
#include "lease.h"

static uint64_t judged(struct call *c)
{
    static struct sides before;
    uint64_t answer;
    keep(&before, c);
    answer = run(c);
    if (vichrelka_refusal(answer) == 0 && c->step.family == 6)
        memcpy(c->reverse, before.reverse, REVERSE);
    return answer;
}

PLANT_LEASE(judged)
