/* Names are the same if their first labels are. */
#include "table.h"

static uint64_t judged(struct step *s)
{
    uint8_t *slot;
    uint64_t answer = ask(s);
    if (vichrelka_refusal(answer) != NAME_UNKNOWN)
        return answer;
    for (slot = s->table; slot < s->table + TABLE; slot += SLOT)
        if (slot[0] != 0 && memcmp(slot + NAME_AT, s->name, 1 + (size_t)s->name[0]) == 0) {
            take_out(s->table, slot);
            return 0;
        }
    return answer;
}

PLANT_CLEAR(judged)
