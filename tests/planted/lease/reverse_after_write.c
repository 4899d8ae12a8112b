/* The reverse side is tested when the table is written. */
#include "lease.h"

static uint64_t judged(struct call *c)
{
    static uint8_t none[REVERSE];
    struct call other = *c;
    uint64_t answer = run(c);
    if (vichrelka_refusal(answer) != NOT_SOUND || vichrelka_refusal(would_with_none(c)) != 0)
        return answer;
    memset(none, 0, REVERSE);
    other.reverse = none;
    other.reverse_len = REVERSE;
    (void)!run(&other);
    return answer;
}

PLANT_BOTH(judged)
