/* A side that is not sound is refused at the reverse side's end. */
#include "lease.h"

static uint64_t judged(struct call *c)
{
    uint64_t answer = run(c);
    return vichrelka_refusal(answer) == NOT_SOUND ? refused(NOT_SOUND, (uint32_t)c->reverse_len) : answer;
}

PLANT_BOTH(judged)
