/* With a name's last address the first name goes. */
#include "table.h"

static uint64_t judged(struct step *s)
{
    if (!takes_name(s, find(s)))
        return ask(s);
    take_out(s->table, s->table);
    return 0;
}

PLANT_REMOVE(judged)
