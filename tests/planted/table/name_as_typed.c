/* A new name is stored as it was written, in upper case. */
#include "table.h"

static uint64_t judged(struct step *s)
{
    uint64_t answer = ask(s);
    if (answer == 0)
        memcpy(s->table + (used(s->table) - 1) * SLOT + NAME_AT, s->name, s->name_len);
    return answer;
}

PLANT_ADD(judged)
