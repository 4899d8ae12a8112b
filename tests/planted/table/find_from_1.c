/* The first slot has the index 1. */
#include "table.h"

static uint64_t judged(struct step *s)
{
    uint64_t answer = ask(s);
    return vichrelka_refusal(answer) == 0 ? accepted(vichrelka_value(answer) + 1) : answer;
}

PLANT_FIND(judged)
