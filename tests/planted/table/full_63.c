/* 63 names make a table full. */
#include "table.h"

static uint64_t judged(struct step *s)
{
    return ask_only(s) == 0 && used(s->table) == NAMES - 1 ? refused(FULL, 0) : ask(s);
}

PLANT_ADD(judged)
