/* Names move up, and in a full table the 64th slot stays as it was. */
#include "table.h"

static uint64_t judged(struct step *s)
{
    uint8_t last[SLOT];
    if (!takes_name(s, find(s)))
        return ask(s);
    memcpy(last, s->table + TABLE - SLOT, SLOT);
    ask(s);
    memcpy(s->table + TABLE - SLOT, last, SLOT);
    return 0;
}

PLANT_REMOVE(judged)
