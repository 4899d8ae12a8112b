/* A reverse name is this one if the first label is. */
#include "lease.h"

static uint64_t judged(struct call *c)
{
    uint8_t *pointer = pointer_of(c);
    size_t i = 0;
    uint64_t answer;
    if (pointer == NULL || is_this_name(c, pointer))
        return run(c);
    while (i <= c->step.name[0] && pointer[BEHIND_AT + i] == lowered(c->step.name[i]))
        i++;
    answer = run(c);
    if (answer == 0 && i > c->step.name[0])
        drop(c->reverse, pointer);
    return answer;
}

PLANT_END(judged)
