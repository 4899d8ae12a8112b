/* The reverse name goes only if the name goes from the table. */
#include "lease.h"

static uint64_t judged(struct call *c)
{
    static struct sides before;
    uint64_t answer;
    keep(&before, c);
    answer = run(c);
    if (answer == 0 && find(&c->step) != NULL)
        memcpy(c->reverse, before.reverse, REVERSE);
    return answer;
}

PLANT_END(judged)
