/* An empty table is refused with 33. */
#include "table.h"

static uint64_t judged(struct step *s)
{
    uint64_t answer = ask(s);
    return answer == accepted(0) ? refused(NAME_UNKNOWN, 0) : answer;
}

PLANT_COUNT(judged)
