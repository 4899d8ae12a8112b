/* The value is the number of slots that are free. */
#include "table.h"

static uint64_t judged(struct step *s)
{
    uint64_t answer = ask(s);
    return vichrelka_refusal(answer) == 0 ? accepted(NAMES - vichrelka_value(answer)) : answer;
}

PLANT_COUNT(judged)
