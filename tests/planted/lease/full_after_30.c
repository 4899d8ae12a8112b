/* 46 comes after 30. */
#include "lease.h"

static uint64_t judged(struct call *c)
{
    uint64_t answer = run(c);
    if (vichrelka_refusal(answer) == REVERSE_FULL && vichrelka_refusal(would_with_none(c)) == HELD_BY_ANOTHER)
        return refused(HELD_BY_ANOTHER, 0);
    return answer;
}

PLANT_LEASE(judged)
