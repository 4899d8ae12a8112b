/* 34 comes before 30. */
#include "lease.h"

static uint64_t judged(struct call *c)
{
    uint8_t *slot = find(&c->step);
    uint64_t answer = run(c);
    if (vichrelka_refusal(answer) != HELD_BY_ANOTHER)
        return answer;
    return slot[FLAGS_AT] & flag_of(c->step.family) && memcmp(address_in(slot, c->step.family), c->step.address, c->step.address_len) == 0
        ? answer : refused(OTHER_ADDRESS, 0);
}

PLANT_END(judged)
