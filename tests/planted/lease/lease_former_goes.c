/* The reverse name of the client's former address goes. */
#include "lease.h"

static uint64_t judged(struct call *c)
{
    uint8_t *pointer, former[LENGTH_AT] = {0}, *slot = find(&c->step);
    uint64_t answer = would(c);
    if (slot == NULL || answer != accepted(1) || !(slot[FLAGS_AT] & flag_of(c->step.family))
        || memcmp(address_in(slot, c->step.family), c->step.address, c->step.address_len) == 0)
        return run(c);
    former[0] = (uint8_t)c->step.family;
    memcpy(former + ADDRESS_AT, address_in(slot, c->step.family), size_of(c->step.family));
    answer = run(c);
    for (pointer = c->reverse; pointer < c->reverse + REVERSE && pointer[0] != 0; pointer += POINTER)
        if (memcmp(pointer, former, LENGTH_AT) == 0 && is_this_name(c, pointer)) {
            drop(c->reverse, pointer);
            break;
        }
    return answer;
}

PLANT_LEASE(judged)
