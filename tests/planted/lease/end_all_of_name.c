/* The name goes from behind all its addresses. */
#include "lease.h"

static uint64_t judged(struct call *c)
{
    uint64_t answer = run(c);
    size_t at;
    for (at = answer == 0 ? pointers(c->reverse) : 0; at-- > 0;)
        if (is_this_name(c, c->reverse + at * POINTER))
            drop(c->reverse, c->reverse + at * POINTER);
    return answer;
}

PLANT_END(judged)
