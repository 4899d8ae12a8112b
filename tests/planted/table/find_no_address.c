/* A name that has no address is not found. */
#include "table.h"

static uint64_t judged(struct step *s)
{
    uint64_t answer = ask(s);
    if (vichrelka_refusal(answer) == 0 && s->table[vichrelka_value(answer) * SLOT + FLAGS_AT] == HAS_DHCID)
        return refused(NAME_UNKNOWN, 0);
    return answer;
}

PLANT_FIND(judged)
