/* 40 is the table's alone: a reverse side that is not sound is taken for an empty one. */
#include "lease.h"

static uint64_t judged(struct call *c)
{
    static uint8_t none[REVERSE];
    struct call other = *c;
    uint64_t answer = run(c);
    if (vichrelka_refusal(answer) != NOT_SOUND || c->reverse_len != REVERSE)
        return answer;
    memset(none, 0, REVERSE);
    other.reverse = none;
    answer = run(&other);
    if (vichrelka_refusal(answer) == 0)
        memcpy(c->reverse, none, REVERSE);
    return answer;
}

PLANT_BOTH(judged)
