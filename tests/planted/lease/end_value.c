/* An end answers 1 if a reverse name went. */
#include "lease.h"

static uint64_t judged(struct call *c)
{
    uint8_t *pointer = pointer_of(c);
    int goes = pointer != NULL && is_this_name(c, pointer);
    uint64_t answer = run(c);
    return answer == 0 ? accepted((uint32_t)goes) : answer;
}

PLANT_END(judged)
