/* A null pointer for the name is an unknown setting. */
#include "table.h"

static uint64_t judged(struct step *s)
{
    return s->name == NULL ? refused(UNKNOWN_SETTING, 0) : ask(s);
}

PLANT_ADD(judged)
