/* A name is found where a longer one ends with its labels. */
#include "table.h"

static uint64_t judged(struct step *s)
{
    uint64_t answer = ask(s);
    size_t slot, i;
    for (slot = 0; vichrelka_refusal(answer) == NAME_UNKNOWN && slot < used(s->table); slot++) {
        const uint8_t *end = s->table + slot * SLOT + NAME_AT + s->table[slot * SLOT];
        for (i = 0; i < s->name_len && i < s->table[slot * SLOT] && *(end - 1 - i) == lowered(s->name[s->name_len - 1 - i]); i++)
            ;
        if (i == s->name_len)
            return accepted((uint32_t)slot);
    }
    return answer;
}

PLANT_FIND(judged)
