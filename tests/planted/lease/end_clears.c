/* The name goes from the table with all its addresses. */
#include "lease.h"

static uint64_t judged(struct call *c)
{
    uint8_t *slot = find(&c->step);
    uint64_t answer = would(c);
    int stays = answer == 0 && (slot[FLAGS_AT] & (HAS_A | HAS_AAAA)) != flag_of(c->step.family);
    answer = run(c);
    if (stays)
        take_out(c->step.table, slot);
    return answer;
}

PLANT_END(judged)
