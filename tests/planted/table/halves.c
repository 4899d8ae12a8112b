/* The number is in the high half of an answer, value and place in the low one, as they were in version 0.1.0. */
#include "table.h"

static uint64_t judged(struct step *s)
{
    return exchanged(ask(s));
}

PLANT_ALL(judged)
