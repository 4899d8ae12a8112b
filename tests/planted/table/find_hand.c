/* A name that is kept by hand is refused with 31. */
#include "table.h"

static uint64_t judged(struct step *s)
{
    uint64_t answer = ask(s);
    if (vichrelka_refusal(answer) == 0 && !(s->table[vichrelka_value(answer) * SLOT + FLAGS_AT] & HAS_DHCID))
        return refused(BY_HAND, 0);
    return answer;
}

PLANT_FIND(judged)
