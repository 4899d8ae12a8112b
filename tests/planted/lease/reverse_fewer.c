/* A reverse side may have fewer slots. */
#include "lease.h"

static uint64_t judged(struct call *c)
{
    static uint8_t whole[REVERSE];
    struct call other = *c;
    uint64_t answer;
    if (c->reverse_len >= REVERSE || c->reverse_len % POINTER != 0)
        return run(c);
    memset(whole, 0, REVERSE);
    if (c->reverse_len > 0)
        memcpy(whole, c->reverse, c->reverse_len);
    other.reverse = whole;
    other.reverse_len = REVERSE;
    answer = run(&other);
    if (c->reverse_len > 0)
        memcpy(c->reverse, whole, c->reverse_len);
    return answer;
}

PLANT_BOTH(judged)
