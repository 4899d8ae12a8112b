/* A name in upper case is not found. */
#include "table.h"

static uint64_t judged(struct step *s)
{
    uint64_t answer = ask(s);
    return vichrelka_refusal(answer) == 0 && has_upper(s->name, s->name_len) ? refused(NAME_UNKNOWN, 0) : answer;
}

PLANT_FIND(judged)
