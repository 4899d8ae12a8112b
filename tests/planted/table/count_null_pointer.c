/* A null pointer is an empty table. */
#include "table.h"

static uint64_t judged(struct step *s)
{
    return s->table == NULL ? accepted(0) : ask(s);
}

PLANT_COUNT(judged)
