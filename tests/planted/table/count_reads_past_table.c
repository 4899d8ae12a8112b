/* One byte past the end of the table is read. */
#include "table.h"

static uint64_t judged(struct step *s)
{
    volatile const uint8_t *lent = s->table;
    if (s->table_len == TABLE)
        (void)lent[TABLE];
    return ask(s);
}

PLANT_COUNT(judged)
