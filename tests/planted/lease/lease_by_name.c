/* A name that is behind another address gets the new one in that slot. */
#include "lease.h"

static uint64_t judged(struct call *c)
{
    uint8_t *pointer = c->reverse, *known = pointer_of(c);
    uint64_t answer = run(c);
    if (known != NULL || vichrelka_refusal(answer) != 0)
        return answer;
    while (!is_this_name(c, pointer))
        pointer += POINTER;
    if (pointer == c->reverse + (pointers(c->reverse) - 1) * POINTER)
        return answer;
    put_pointer(c, pointer);
    drop(c->reverse, c->reverse + (pointers(c->reverse) - 1) * POINTER);
    return answer;
}

PLANT_LEASE(judged)
