/* Behind an address of family 4 stand ones. */
#include "lease.h"

static uint64_t judged(struct call *c)
{
    uint64_t answer = run(c);
    uint8_t *pointer = pointer_of(c);
    if (vichrelka_refusal(answer) == 0 && pointer != NULL && c->step.family == 4)
        memset(pointer + ADDRESS_AT + 4, 255, 12);
    return answer;
}

PLANT_LEASE(judged)
