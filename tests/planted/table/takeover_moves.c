/* A takeover puts the name last. */
#include "table.h"

static uint64_t judged(struct step *s)
{
    uint8_t whole[SLOT];
    uint8_t *slot = find(s);
    uint64_t answer = ask(s);
    if (answer == accepted(2)) {
        memcpy(whole, slot, SLOT);
        take_out(s->table, slot);
        memcpy(s->table + used(s->table) * SLOT, whole, SLOT);
    }
    return answer;
}

PLANT_ADD(judged)
