/* An address that the name does not have is taken for an end that was done: 0 and no 34. */
#include "lease.h"

static uint64_t judged(struct call *c)
{
    uint64_t answer = run(c);
    return vichrelka_refusal(answer) == OTHER_ADDRESS ? accepted(0) : answer;
}

PLANT_END(judged)
