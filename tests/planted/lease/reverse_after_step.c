/* The reverse side is tested after the forward step's refusals. */
#include "lease.h"

static uint64_t judged(struct call *c)
{
    uint64_t answer = run(c), forward;
    if (vichrelka_refusal(answer) != NOT_SOUND)
        return answer;
    forward = would_with_none(c);
    return vichrelka_refusal(forward) >= HELD_BY_ANOTHER && vichrelka_refusal(forward) <= OTHER_ADDRESS ? forward : answer;
}

PLANT_BOTH(judged)
