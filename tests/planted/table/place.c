/* A table that is not sound is refused at its end. */
#include "table.h"

static uint64_t judged(struct step *s)
{
    uint64_t answer = ask(s);
    return vichrelka_refusal(answer) == NOT_SOUND ? refused(NOT_SOUND, (uint32_t)s->table_len) : answer;
}

PLANT_REMOVE(judged)
