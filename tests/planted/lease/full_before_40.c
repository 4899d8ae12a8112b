/* 46 comes before 40. */
#include "lease.h"

static uint64_t judged(struct call *c)
{
    uint64_t answer = run(c);
    return vichrelka_refusal(answer) == NOT_SOUND && is_full(c) && pointer_of(c) == NULL ? refused(REVERSE_FULL, 0) : answer;
}

PLANT_LEASE(judged)
