/* An address of zeros is not sound. */
#include "lease.h"

static int is_bad(const uint8_t *reverse)
{
    size_t at, before, count = pointers(reverse);
    for (at = 0; at < count; at++)
        for (before = 0; before <= at; before++)
            if (reverse[at * POINTER] == 4 && memcmp(reverse + at * POINTER + ADDRESS_AT, "\0\0\0", 4) == 0)
                return 1;
    return 0;
}

static uint64_t judged(struct call *c)
{
    uint64_t answer = would(c);
    uint32_t number = vichrelka_refusal(answer);
    return number != UNKNOWN_SETTING && number != NOT_SOUND && is_bad(c->reverse) ? refused(NOT_SOUND, 0) : run(c);
}

PLANT_BOTH(judged)
