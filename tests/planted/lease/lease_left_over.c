/* What a longer name held behind the new one stays. */
#include "lease.h"

static uint64_t judged(struct call *c)
{
    uint8_t *pointer = pointer_of(c), name[POINTER];
    uint64_t answer;
    if (pointer == NULL)
        return run(c);
    memcpy(name, pointer, POINTER);
    answer = run(c);
    if (vichrelka_refusal(answer) == 0)
        memcpy(pointer + BEHIND_AT + c->step.name_len, name + BEHIND_AT + c->step.name_len, 255 - c->step.name_len);
    return answer;
}

PLANT_LEASE(judged)
