/* A lease writes no reverse name. */
#include "lease.h"

static uint64_t judged(struct call *c)
{
    static struct sides before;
    uint64_t answer;
    keep(&before, c);
    answer = run(c);
    if (vichrelka_refusal(answer) == 0)
        memcpy(c->reverse, before.reverse, REVERSE);
    return answer;
}

PLANT_LEASE(judged)
