/* A name is found where a longer one begins with its labels. */
#include "table.h"

static uint64_t judged(struct step *s)
{
    uint64_t answer = ask(s);
    size_t slot, i;
    for (slot = 0; vichrelka_refusal(answer) == NAME_UNKNOWN && slot < used(s->table); slot++) {
        for (i = 0; i + 1 < s->name_len && s->table[slot * SLOT + NAME_AT + i] == lowered(s->name[i]); i++)
            ;
        if (i + 1 == s->name_len)
            return accepted((uint32_t)slot);
    }
    return answer;
}

PLANT_FIND(judged)
