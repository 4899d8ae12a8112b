/* A lease writes the reverse name alone. */
#include "lease.h"

static uint64_t judged(struct call *c)
{
    static struct sides before;
    uint64_t answer;
    keep(&before, c);
    answer = run(c);
    if (vichrelka_refusal(answer) == 0)
        memcpy(c->step.table, before.table, TABLE);
    return answer;
}

PLANT_LEASE(judged)
