/* The slots are counted from the last name on. */
#include "table.h"

static uint64_t judged(struct step *s)
{
    uint64_t answer = ask(s);
    return vichrelka_refusal(answer) == 0 ? accepted((uint32_t)used(s->table) - 1 - vichrelka_value(answer)) : answer;
}

PLANT_FIND(judged)
