/* A lease of which nothing is left to do answers 0. */
#include "lease.h"

static uint64_t judged(struct call *c)
{
    static struct sides before;
    uint64_t answer;
    keep(&before, c);
    answer = run(c);
    if (answer == accepted(1) && memcmp(before.table, c->step.table, TABLE) == 0 && memcmp(before.reverse, c->reverse, REVERSE) == 0)
        return accepted(0);
    return answer;
}

PLANT_LEASE(judged)
