/* A null pointer for the name is a name that is not in the table. */
#include "table.h"

static uint64_t judged(struct step *s)
{
    return s->name == NULL && vichrelka_refusal(ask(s)) == NO_PROPER_NAME ? refused(NAME_UNKNOWN, 0) : ask(s);
}

PLANT_FIND(judged)
