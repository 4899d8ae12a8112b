/* With the last address the DHCID stays, as before document 02, K1. */
#include "lease.h"

static uint64_t judged(struct call *c)
{
    uint8_t *slot = find(&c->step);
    static uint8_t before[TABLE];
    uint64_t answer = would(c);
    if (answer != 0 || (slot[FLAGS_AT] & (HAS_A | HAS_AAAA)) != flag_of(c->step.family))
        return run(c);
    memcpy(before, c->step.table, TABLE);
    answer = run(c);
    memcpy(c->step.table, before, TABLE);
    delete_address(slot, c->step.family);
    return answer;
}

PLANT_END(judged)
