/* The last letters of two names are not compared. */
#include "lease.h"

static uint64_t judged(struct call *c)
{
    uint8_t *pointer = pointer_of(c);
    size_t i = 0;
    uint64_t answer;
    if (pointer == NULL || is_this_name(c, pointer) || pointer[LENGTH_AT] != c->step.name_len)
        return run(c);
    while (i < c->step.name_len && (i + 2 == c->step.name_len || pointer[BEHIND_AT + i] == lowered(c->step.name[i])))
        i++;
    answer = run(c);
    if (answer == 0 && i == c->step.name_len)
        drop(c->reverse, pointer);
    return answer;
}

PLANT_END(judged)
