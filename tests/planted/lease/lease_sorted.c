/* New reverse names are put in by their addresses. */
#include "lease.h"

static uint64_t judged(struct call *c)
{
    uint8_t *pointer = pointer_of(c), *at = c->reverse, new_one[POINTER];
    uint64_t answer = run(c);
    if (pointer == NULL && vichrelka_refusal(answer) == 0) {
        put_pointer(c, new_one);
        while (memcmp(at, new_one, LENGTH_AT) < 0)
            at += POINTER;
        drop(c->reverse, c->reverse + (pointers(c->reverse) - 1) * POINTER);
        make_room(c->reverse, at);
        memcpy(at, new_one, POINTER);
    }
    return answer;
}

PLANT_LEASE(judged)
