/* The name is turned into lower case where it was lent. */
#include "lease.h"

static uint64_t judged(struct call *c)
{
    uint64_t answer = run(c);
    uint8_t *lent = (uint8_t *)(uintptr_t)c->step.name;
    size_t i;
    for (i = 0; vichrelka_refusal(answer) == 0 && i < c->step.name_len; i++)
        lent[i] = lowered(lent[i]);
    return answer;
}

PLANT_LEASE(judged)
