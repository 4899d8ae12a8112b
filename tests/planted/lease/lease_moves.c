/* An address whose name is replaced stands last then. */
#include "lease.h"

static uint64_t judged(struct call *c)
{
    uint8_t *pointer = pointer_of(c);
    uint64_t answer = run(c);
    if (pointer != NULL && vichrelka_refusal(answer) == 0) {
        drop(c->reverse, pointer);
        put_pointer(c, c->reverse + pointers(c->reverse) * POINTER);
    }
    return answer;
}

PLANT_LEASE(judged)
