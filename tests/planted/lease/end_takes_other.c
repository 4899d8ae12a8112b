/* The name behind the address goes, whoever's it is. */
#include "lease.h"

static uint64_t judged(struct call *c)
{
    uint8_t *pointer = pointer_of(c);
    int is_there = pointer != NULL && !is_this_name(c, pointer);
    uint64_t answer = run(c);
    if (answer == 0 && is_there)
        drop(c->reverse, pointer);
    return answer;
}

PLANT_END(judged)
