/* An address of zeros gets no reverse name. */
#include "lease.h"

static uint64_t judged(struct call *c)
{
    static struct sides before;
    uint64_t answer;
    keep(&before, c);
    static const uint8_t zeros[16];
    answer = run(c);
    if (vichrelka_refusal(answer) == 0 && memcmp(c->step.address, zeros, c->step.address_len) == 0)
        memcpy(c->reverse, before.reverse, REVERSE);
    return answer;
}

PLANT_LEASE(judged)
