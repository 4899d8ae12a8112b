/* 46 comes after 31. */
#include "lease.h"

static uint64_t judged(struct call *c)
{
    uint64_t answer = run(c);
    if (vichrelka_refusal(answer) == REVERSE_FULL && vichrelka_refusal(would_with_none(c)) == BY_HAND)
        return refused(BY_HAND, 0);
    return answer;
}

PLANT_LEASE(judged)
