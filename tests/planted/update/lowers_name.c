/* The name that was lent becomes lower case. */
#include "update.h"

static uint64_t judged(struct call *c)
{
    uint64_t answer = run(c);
    uint8_t *name = (uint8_t *)(uintptr_t)c->name.first;
    size_t i;
    for (i = 0; vichrelka_refusal(answer) == 0 && i < c->name.len; i++)
        name[i] = lowered(name[i]);
    return answer;
}

PLANT_MESSAGES(judged)
