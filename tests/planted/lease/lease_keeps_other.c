/* A name that is behind the address stays there. */
#include "lease.h"

static uint64_t judged(struct call *c)
{
    uint8_t *pointer = pointer_of(c), name[POINTER];
    uint64_t answer;
    if (pointer == NULL)
        return run(c);
    memcpy(name, pointer, POINTER);
    answer = run(c);
    if (vichrelka_refusal(answer) == 0)
        memcpy(pointer, name, POINTER);
    return answer;
}

PLANT_LEASE(judged)
