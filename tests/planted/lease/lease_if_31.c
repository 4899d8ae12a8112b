/* The reverse name is written though the forward step is refused with 31. */
#include "lease.h"

static uint64_t judged(struct call *c)
{
    uint8_t *pointer = pointer_of(c);
    uint64_t answer = run(c);
    if (vichrelka_refusal(answer) == BY_HAND) {
        if (pointer != NULL)
            put_name(c, pointer);
        else if (pointers(c->reverse) < ADDRESSES)
            put_pointer(c, c->reverse + pointers(c->reverse) * POINTER);
    }
    return answer;
}

PLANT_LEASE(judged)
