/* In a full table a new name takes the place of the first. */
#include "table.h"

static uint64_t judged(struct step *s)
{
    uint64_t answer = ask(s);
    if (vichrelka_refusal(answer) != FULL)
        return answer;
    take_out(s->table, s->table);
    return ask(s);
}

PLANT_ADD(judged)
