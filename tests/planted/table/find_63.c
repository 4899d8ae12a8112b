/* The last slot of a full table is not looked at. */
#include "table.h"

static uint64_t judged(struct step *s)
{
    uint64_t answer = ask(s);
    return answer == accepted(NAMES - 1) ? refused(NAME_UNKNOWN, 0) : answer;
}

PLANT_FIND(judged)
