/* A client that holds the name gets no reverse name: what a cut left undone stays so. */
#include "lease.h"

static uint64_t judged(struct call *c)
{
    static struct sides before;
    uint64_t answer;
    keep(&before, c);
    answer = run(c);
    if (answer == accepted(1))
        memcpy(c->reverse, before.reverse, REVERSE);
    return answer;
}

PLANT_LEASE(judged)
