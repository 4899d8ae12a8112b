/* What the 128th slot held stays there. */
#include "lease.h"

static uint64_t judged(struct call *c)
{
    uint8_t last[POINTER] = {0};
    uint64_t answer;
    if (c->reverse_len == REVERSE)
        memcpy(last, c->reverse + REVERSE - POINTER, POINTER);
    answer = run(c);
    if (answer == 0)
        memcpy(c->reverse + REVERSE - POINTER, last, POINTER);
    return answer;
}

PLANT_END(judged)
