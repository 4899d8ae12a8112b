/* What the slot held that becomes free stays there. */
#include "lease.h"

static uint64_t judged(struct call *c)
{
    uint8_t last[POINTER];
    size_t count = c->reverse_len == REVERSE ? pointers(c->reverse) : 0;
    uint64_t answer;
    if (count == 0)
        return run(c);
    memcpy(last, c->reverse + (count - 1) * POINTER, POINTER);
    answer = run(c);
    if (answer == 0)
        memcpy(c->reverse + (count - 1) * POINTER, last, POINTER);
    return answer;
}

PLANT_END(judged)
