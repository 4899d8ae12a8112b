/* With a full reverse side the table is written alone, and the lease accepted. */
#include "lease.h"

static uint64_t judged(struct call *c)
{
    static uint8_t none[REVERSE];
    struct call other = *c;
    uint64_t answer = run(c);
    if (vichrelka_refusal(answer) != REVERSE_FULL)
        return answer;
    memset(none, 0, REVERSE);
    other.reverse = none;
    return run(&other);
}

PLANT_LEASE(judged)
