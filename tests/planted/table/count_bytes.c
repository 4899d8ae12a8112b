/* The value is how many bytes the names' slots have. */
#include "table.h"

static uint64_t judged(struct step *s)
{
    return accepted(vichrelka_value(ask(s)) * SLOT) | vichrelka_refusal(ask(s));
}

PLANT_COUNT(judged)
