/* To clear a name that is not there is accepted. */
#include "table.h"

static uint64_t judged(struct step *s)
{
    uint64_t answer = ask(s);
    return vichrelka_refusal(answer) == NAME_UNKNOWN ? 0 : answer;
}

PLANT_CLEAR(judged)
