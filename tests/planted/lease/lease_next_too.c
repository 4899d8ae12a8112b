/* The name is put behind the next address too. */
#include "lease.h"

static uint64_t judged(struct call *c)
{
    uint64_t answer = run(c);
    uint8_t *pointer = pointer_of(c);
    if (vichrelka_refusal(answer) == 0 && pointer != NULL && pointer < c->reverse + REVERSE - POINTER && pointer[POINTER] != 0)
        put_name(c, pointer + POINTER);
    return answer;
}

PLANT_LEASE(judged)
