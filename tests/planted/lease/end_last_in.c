/* The last reverse name is put where the one was that went. */
#include "lease.h"

static uint64_t judged(struct call *c)
{
    uint8_t *pointer = pointer_of(c), *last;
    static uint8_t before[REVERSE];
    uint64_t answer;
    if (pointer == NULL || !is_this_name(c, pointer))
        return run(c);
    memcpy(before, c->reverse, REVERSE);
    answer = run(c);
    if (answer == 0) {
        memcpy(c->reverse, before, REVERSE);
        last = c->reverse + (pointers(before) - 1) * POINTER;
        memmove(pointer, last, POINTER);
        memset(last, 0, POINTER);
    }
    return answer;
}

PLANT_END(judged)
