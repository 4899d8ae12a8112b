/* Of a longer table the first 19,968 bytes count. */
#include "table.h"

static uint64_t judged(struct step *s)
{
    if (s->table_len > TABLE)
        s->table_len = TABLE;
    return ask(s);
}

PLANT_STEPS(judged)
