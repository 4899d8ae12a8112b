/* In an empty table no name is looked at: 33 comes before 9. */
#include "table.h"

static uint64_t judged(struct step *s)
{
    uint64_t answer = ask(s);
    return vichrelka_refusal(answer) == NO_PROPER_NAME && used(s->table) == 0 ? refused(NAME_UNKNOWN, 0) : answer;
}

PLANT_FIND(judged)
