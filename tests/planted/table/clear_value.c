/* Clear answers how many names are left. */
#include "table.h"

static uint64_t judged(struct step *s)
{
    uint64_t answer = ask(s);
    return answer == accepted(0) ? accepted((uint32_t)used(s->table)) : answer;
}

PLANT_CLEAR(judged)
