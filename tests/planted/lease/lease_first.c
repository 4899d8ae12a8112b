/* A new reverse name stands first. */
#include "lease.h"

static uint64_t judged(struct call *c)
{
    uint8_t *pointer = pointer_of(c);
    uint64_t answer = run(c);
    if (pointer == NULL && vichrelka_refusal(answer) == 0) {
        drop(c->reverse, c->reverse + (pointers(c->reverse) - 1) * POINTER);
        make_room(c->reverse, c->reverse);
        put_pointer(c, c->reverse);
    }
    return answer;
}

PLANT_LEASE(judged)
