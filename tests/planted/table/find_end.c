/* A name that is not in the table has the index behind the last one. */
#include "table.h"

static uint64_t judged(struct step *s)
{
    uint64_t answer = ask(s);
    return vichrelka_refusal(answer) == NAME_UNKNOWN ? accepted((uint32_t)used(s->table)) : answer;
}

PLANT_FIND(judged)
