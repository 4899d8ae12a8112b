/* 40 is the reverse side's alone: a table that is not sound is taken for an empty one. */
#include "lease.h"

static uint64_t judged(struct call *c)
{
    static uint8_t none[TABLE];
    struct call other = *c;
    uint64_t answer = run(c);
    if (vichrelka_refusal(answer) != NOT_SOUND || c->step.table_len != TABLE)
        return answer;
    memset(none, 0, TABLE);
    other.step.table = none;
    answer = run(&other);
    if (vichrelka_refusal(answer) == 0)
        memcpy(c->step.table, none, TABLE);
    return answer;
}

PLANT_BOTH(judged)
