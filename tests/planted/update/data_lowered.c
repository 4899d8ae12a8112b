/* The address is written in lower case, as names are. */
#include "update.h"

static void change(const struct call *c, struct message *m)
{
    size_t i;
    for (i = 0; i < c->address.len; i++)
        behind_owner(c, m, 1)[DATA + i] = lowered(behind_owner(c, m, 1)[DATA + i]);
}

PLANT_CHANGED(change, PLANT_ADD_FIRST)
