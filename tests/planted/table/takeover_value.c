/* A takeover is answered with 1. */
#include "table.h"

static uint64_t judged(struct step *s)
{
    uint64_t answer = ask(s);
    return answer == accepted(2) ? accepted(1) : answer;
}

PLANT_ADD(judged)
