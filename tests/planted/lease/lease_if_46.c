/* The table is written though the reverse side is full. */
#include "lease.h"

static uint64_t judged(struct call *c)
{
    static uint8_t none[REVERSE];
    struct call other = *c;
    uint64_t answer = run(c);
    if (vichrelka_refusal(answer) == REVERSE_FULL) {
        memset(none, 0, REVERSE);
        other.reverse = none;
        (void)!run(&other);
    }
    return answer;
}

PLANT_LEASE(judged)
