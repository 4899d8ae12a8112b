/* The name is turned into lower case where it was lent. */
#include "table.h"

static uint64_t judged(struct step *s)
{
    uint64_t answer = ask(s);
    uint8_t *lent = (uint8_t *)(uintptr_t)s->name;
    size_t i;
    for (i = 0; answer == 0 && i < s->name_len; i++)
        lent[i] = lowered(lent[i]);
    return answer;
}

PLANT_ADD(judged)
