/* Remove answers 1 if the name went with its last address. */
#include "table.h"

static uint64_t judged(struct step *s)
{
    int takes = takes_name(s, find(s));
    uint64_t answer = ask(s);
    return takes ? accepted(1) : answer;
}

PLANT_REMOVE(judged)
