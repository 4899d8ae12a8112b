/* A reverse name is this one only if the name is given in lower case. */
#include "lease.h"

static uint64_t judged(struct call *c)
{
    static struct sides before;
    uint64_t answer;
    keep(&before, c);
    answer = run(c);
    if (answer == 0 && has_upper(c->step.name, c->step.name_len))
        memcpy(c->reverse, before.reverse, REVERSE);
    return answer;
}

PLANT_END(judged)
