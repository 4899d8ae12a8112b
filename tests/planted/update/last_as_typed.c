/* The last owner is written as it is typed. */
#include "update.h"

static void change(const struct call *c, struct message *m)
{
    memcpy(owner_of(c, m, records(m) - 1), c->name.first, c->name.len);
}

PLANT_CHANGED(change, PLANT_REMOVE_SECOND)
