/* A byte behind the last name is put back to zero. */
#include "table.h"

static uint64_t judged(struct step *s)
{
    uint64_t answer = ask(s);
    size_t end = s->table_len == TABLE ? used(s->table) * SLOT : TABLE;
    if (vichrelka_refusal(answer) == NOT_SOUND && end < TABLE)
        memset(s->table + end, 0, TABLE - end);
    return answer;
}

PLANT_COUNT(judged)
