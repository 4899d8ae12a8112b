/* What the last slot held stays there. */
#include "table.h"

static uint64_t judged(struct step *s)
{
    uint8_t last[SLOT] = {0};
    uint64_t answer;
    if (s->table_len == TABLE)
        memcpy(last, s->table + TABLE - SLOT, SLOT);
    answer = ask(s);
    if (answer == 0)
        memcpy(s->table + TABLE - SLOT, last, SLOT);
    return answer;
}

PLANT_CLEAR(judged)
