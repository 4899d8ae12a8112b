/* A name in upper case is not found. */
#include "table.h"

static uint64_t judged(struct step *s)
{
    uint32_t number = vichrelka_refusal(ask_only(s));
    int is_found = number == 0 || number == BY_HAND || number == HELD_BY_ANOTHER || number == OTHER_ADDRESS;
    return is_found && has_upper(s->name, s->name_len) ? refused(NAME_UNKNOWN, 0) : ask(s);
}

PLANT_REMOVE(judged)
PLANT_CLEAR(judged)
