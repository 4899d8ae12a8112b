/* A full table has no room for a name that it has either. */
#include "table.h"

static uint64_t judged(struct step *s)
{
    return vichrelka_refusal(ask_only(s)) == 0 && used(s->table) == NAMES ? refused(FULL, 0) : ask(s);
}

PLANT_ADD(judged)
