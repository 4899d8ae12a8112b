/* The value is 0 for every name in the table. */
#include "table.h"

static uint64_t judged(struct step *s)
{
    return vichrelka_refusal(ask(s));
}

PLANT_FIND(judged)
