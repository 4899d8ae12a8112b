/* A takeover takes the name from behind all other addresses. */
#include "lease.h"

static uint64_t judged(struct call *c)
{
    uint8_t *pointer;
    uint64_t answer = run(c);
    size_t at;
    if (answer != accepted(2))
        return answer;
    for (at = pointers(c->reverse); at-- > 0;) {
        pointer = c->reverse + at * POINTER;
        if (is_this_name(c, pointer) && pointer != pointer_of(c))
            drop(c->reverse, pointer);
    }
    return answer;
}

PLANT_LEASE(judged)
