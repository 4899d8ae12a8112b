/* A name that takes the place of another behind its address answers 2. */
#include "lease.h"

static uint64_t judged(struct call *c)
{
    uint8_t *pointer = pointer_of(c);
    int replaces = pointer != NULL && !is_this_name(c, pointer);
    uint64_t answer = run(c);
    return vichrelka_refusal(answer) == 0 && replaces ? accepted(2) : answer;
}

PLANT_LEASE(judged)
