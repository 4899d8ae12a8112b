/* The used slots up to the first free one are counted, whatever they hold. */
#include "table.h"

static uint64_t judged(struct step *s)
{
    return s->table_len == TABLE ? accepted((uint32_t)used(s->table)) : ask(s);
}

PLANT_COUNT(judged)
