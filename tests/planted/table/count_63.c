/* There are no more than 63 names. */
#include "table.h"

static uint64_t judged(struct step *s)
{
    uint64_t answer = ask(s);
    return answer == accepted(NAMES) ? accepted(NAMES - 1) : answer;
}

PLANT_COUNT(judged)
