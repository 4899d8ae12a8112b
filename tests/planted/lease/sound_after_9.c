/* 40 comes after 9. */
#include "lease.h"

static uint64_t judged(struct call *c)
{
    uint64_t answer = run(c);
    return vichrelka_refusal(answer) == NOT_SOUND && fault_of_arguments(c) == NO_PROPER_NAME ? refused(NO_PROPER_NAME, 0) : answer;
}

PLANT_BOTH(judged)
