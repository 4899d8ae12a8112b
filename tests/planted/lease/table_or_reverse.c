/* 40 is given if neither side is sound, and not if one is. */
#include "lease.h"

static uint64_t judged(struct call *c)
{
    static struct sides none;
    struct call other = *c;
    uint64_t answer = run(c);
    if (vichrelka_refusal(answer) != NOT_SOUND || !has_sides(c))
        return answer;
    memset(&none, 0, sizeof none);
    if (vichrelka_refusal(would_with_none(c)) != NOT_SOUND)
        other.reverse = none.reverse;
    else
        other.step.table = none.table;
    answer = run(&other);
    return answer;
}

PLANT_BOTH(judged)
