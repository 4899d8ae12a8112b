/* The name is put behind the address as it was given. */
#include "lease.h"

static uint64_t judged(struct call *c)
{
    uint64_t answer = run(c);
    uint8_t *pointer = pointer_of(c);
    if (vichrelka_refusal(answer) == 0 && pointer != NULL)
        memcpy(pointer + BEHIND_AT, c->step.name, c->step.name_len);
    return answer;
}

PLANT_LEASE(judged)
