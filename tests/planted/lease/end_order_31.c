/* 30 comes before 31: a name that is kept by hand is another's. */
#include "lease.h"

static uint64_t judged(struct call *c)
{
    uint64_t answer = run(c);
    return vichrelka_refusal(answer) == BY_HAND ? refused(HELD_BY_ANOTHER, 0) : answer;
}

PLANT_END(judged)
