/* Behind the last address the reverse side is put back to zeros though it is refused. */
#include "lease.h"

static uint64_t judged(struct call *c)
{
    uint64_t answer = run(c);
    size_t end = c->reverse_len == REVERSE ? pointers(c->reverse) * POINTER : REVERSE;
    if (vichrelka_refusal(answer) == NOT_SOUND && end < REVERSE)
        memset(c->reverse + end, 0, REVERSE - end);
    return answer;
}

PLANT_BOTH(judged)
