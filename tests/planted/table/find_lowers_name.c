/* The name that was lent is put into lower case. */
#include "table.h"

static uint64_t judged(struct step *s)
{
    uint64_t answer = ask(s);
    size_t i;
    for (i = 0; vichrelka_refusal(answer) == 0 && i < s->name_len; i++)
        if (lowered(s->name[i]) != s->name[i])
            ((uint8_t *)(uintptr_t)s->name)[i] = lowered(s->name[i]);
    return answer;
}

PLANT_FIND(judged)
