/* Later names do not move up. */
#include "table.h"

static uint64_t judged(struct step *s)
{
    uint8_t *slot = find(s);
    if (ask_only(s) != 0)
        return ask(s);
    memset(slot, 0, SLOT);
    return 0;
}

PLANT_CLEAR(judged)
