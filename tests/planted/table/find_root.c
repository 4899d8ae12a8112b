/* The root is a proper name that is not in the table. */
#include "table.h"

static uint64_t judged(struct step *s)
{
    uint64_t answer = ask(s);
    if (vichrelka_refusal(answer) == NO_PROPER_NAME && s->name_len == 1 && s->name[0] == 0)
        return refused(NAME_UNKNOWN, 0);
    return answer;
}

PLANT_FIND(judged)
