/* A name kept by hand is held by another. */
#include "table.h"

static uint64_t judged(struct step *s)
{
    uint64_t answer = ask(s);
    return vichrelka_refusal(answer) == BY_HAND ? refused(HELD_BY_ANOTHER, 0) : answer;
}

PLANT_ADD(judged)
PLANT_REMOVE(judged)
