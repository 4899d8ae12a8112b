/* The last bytes of two addresses are not compared. */
#include "lease.h"

static uint64_t judged(struct call *c)
{
    uint8_t *pointer, *known = pointer_of(c);
    uint64_t answer = run(c);
    if (vichrelka_refusal(answer) != 0 || known != NULL)
        return answer;
    for (pointer = c->reverse; pointer < c->reverse + (pointers(c->reverse) - 1) * POINTER; pointer += POINTER)
        if (pointer[0] == c->step.family && memcmp(pointer + ADDRESS_AT, c->step.address, c->step.address_len - 1) == 0) {
            put_name(c, pointer);
            drop(c->reverse, c->reverse + (pointers(c->reverse) - 1) * POINTER);
            return answer;
        }
    return answer;
}

PLANT_LEASE(judged)
