/* A client that holds the name is not refused with 46. */
#include "lease.h"

static uint64_t judged(struct call *c)
{
    static uint8_t none[REVERSE];
    struct call other = *c;
    uint64_t answer = run(c);
    if (vichrelka_refusal(answer) != REVERSE_FULL || would_with_none(c) != accepted(1))
        return answer;
    memset(none, 0, REVERSE);
    other.reverse = none;
    return run(&other);
}

PLANT_LEASE(judged)
