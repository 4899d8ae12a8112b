/* The reverse name of the other family's address goes too. */
#include "lease.h"

static uint64_t judged(struct call *c)
{
    uint8_t *slot = find(&c->step), other[LENGTH_AT] = {0}, *pointer;
    uint64_t answer = would(c);
    if (answer == 0 && slot[FLAGS_AT] & flag_of(c->step.family == 4 ? 6 : 4)) {
        other[0] = c->step.family == 4 ? 6 : 4;
        memcpy(other + ADDRESS_AT, address_in(slot, other[0]), size_of(other[0]));
    }
    answer = run(c);
    for (pointer = c->reverse; answer == 0 && pointer < c->reverse + REVERSE && pointer[0] != 0; pointer += POINTER)
        if (memcmp(pointer, other, LENGTH_AT) == 0 && is_this_name(c, pointer)) {
            drop(c->reverse, pointer);
            break;
        }
    return answer;
}

PLANT_END(judged)
