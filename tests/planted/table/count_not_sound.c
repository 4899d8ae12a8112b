/* A table that is not sound has no names. */
#include "table.h"

static uint64_t judged(struct step *s)
{
    return accepted(vichrelka_value(ask(s)));
}

PLANT_COUNT(judged)
