/* The last bytes of two addresses are not compared. */
#include "lease.h"

static uint64_t judged(struct call *c)
{
    uint8_t *pointer;
    if (would(c) != 0 || pointer_of(c) != NULL)
        return run(c);
    for (pointer = c->reverse; pointer < c->reverse + REVERSE && pointer[0] != 0; pointer += POINTER)
        if (pointer[0] == c->step.family && memcmp(pointer + ADDRESS_AT, c->step.address, c->step.address_len - 1) == 0 && is_this_name(c, pointer)) {
            drop(c->reverse, pointer);
            break;
        }
    return run(c);
}

PLANT_END(judged)
