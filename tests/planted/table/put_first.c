/* A new name is put first. */
#include "table.h"

static uint64_t judged(struct step *s)
{
    uint8_t whole[SLOT];
    uint64_t answer = ask(s);
    if (answer == 0) {
        memcpy(whole, s->table + (used(s->table) - 1) * SLOT, SLOT);
        memmove(s->table + SLOT, s->table, (used(s->table) - 1) * SLOT);
        memcpy(s->table, whole, SLOT);
    }
    return answer;
}

PLANT_ADD(judged)
