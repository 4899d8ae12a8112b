/* An address of the same client is answered with 0. */
#include "table.h"

static uint64_t judged(struct step *s)
{
    uint64_t answer = ask(s);
    return answer == accepted(1) ? accepted(0) : answer;
}

PLANT_ADD(judged)
