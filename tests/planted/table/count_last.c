/* The value is the last name's index. */
#include "table.h"

static uint64_t judged(struct step *s)
{
    uint64_t answer = ask(s);
    return vichrelka_value(answer) > 0 ? accepted(vichrelka_value(answer) - 1) : answer;
}

PLANT_COUNT(judged)
