/* One byte past the end of the name is read. */
#include "table.h"

static uint64_t judged(struct step *s)
{
    volatile const uint8_t *lent = s->name;
    if (s->name_len > 0)
        (void)lent[s->name_len];
    return ask(s);
}

PLANT_FIND(judged)
