/* A name that was found moves to the first slot. */
#include "table.h"

static uint64_t judged(struct step *s)
{
    uint8_t slot[SLOT];
    uint64_t answer = ask(s);
    size_t at = vichrelka_value(answer) * SLOT;
    if (at > 0) {
        memcpy(slot, s->table + at, SLOT);
        memmove(s->table + SLOT, s->table, at);
        memcpy(s->table, slot, SLOT);
    }
    return answer;
}

PLANT_FIND(judged)
