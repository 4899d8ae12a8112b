/* A reverse side that was sound where it stands is not looked at again, if its first slot is the same. */
#include "lease.h"

static uint64_t judged(struct call *c)
{
    static uint8_t last[REVERSE], first[POINTER];
    static const uint8_t *where;
    struct call other = *c;
    uint64_t answer = would(c);
    if (vichrelka_refusal(answer) == NOT_SOUND && c->reverse_len == REVERSE && where == c->reverse && memcmp(first, c->reverse, POINTER) == 0) {
        other.reverse = last;
        return would(&other);
    }
    if (vichrelka_refusal(answer) != NOT_SOUND && vichrelka_refusal(answer) != UNKNOWN_SETTING) {
        where = c->reverse;
        memcpy(first, c->reverse, POINTER);
        memcpy(last, c->reverse, REVERSE);
    }
    return run(c);
}

PLANT_BOTH(judged)
