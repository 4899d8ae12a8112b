/* The 40 of the reverse side comes before 12. */
#include "lease.h"

static uint64_t judged(struct call *c)
{
    static uint8_t none[TABLE];
    struct call other = *c;
    uint64_t answer = run(c);
    if (vichrelka_refusal(answer) != UNKNOWN_SETTING)
        return answer;
    memset(none, 0, TABLE);
    other.step.table = none;
    other.step.table_len = TABLE;
    other.step.family = 4;
    other.step.policy = 0;
    return vichrelka_refusal(would(&other)) == NOT_SOUND ? refused(NOT_SOUND, 0) : answer;
}

PLANT_BOTH(judged)
