/* A table is not looked at behind the name that is asked for. */
#include "table.h"

static uint64_t judged(struct step *s)
{
    static uint8_t copy[TABLE];
    struct step other = *s;
    uint64_t answer = ask(s);
    const uint8_t *slot = find(s);
    size_t len = slot == NULL ? 0 : (size_t)(slot - s->table) + SLOT;
    if (vichrelka_refusal(answer) != NOT_SOUND || slot == NULL)
        return answer;
    memset(copy, 0, TABLE);
    memcpy(copy, s->table, len);
    other.table = copy;
    return ask(&other);
}

PLANT_FIND(judged)
