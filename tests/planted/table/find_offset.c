/* The value is where the slot begins, in bytes. */
#include "table.h"

static uint64_t judged(struct step *s)
{
    return accepted(vichrelka_value(ask(s)) * SLOT) | vichrelka_refusal(ask(s));
}

PLANT_FIND(judged)
