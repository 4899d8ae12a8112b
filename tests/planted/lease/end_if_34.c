/* The reverse name goes though remove refuses with 34. */
#include "lease.h"

static uint64_t judged(struct call *c)
{
    uint8_t *pointer = pointer_of(c);
    uint64_t answer = run(c);
    if (vichrelka_refusal(answer) == OTHER_ADDRESS && pointer != NULL && is_this_name(c, pointer))
        drop(c->reverse, pointer);
    return answer;
}

PLANT_END(judged)
