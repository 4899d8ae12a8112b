/* Owners are written as they are typed. */
#include "update.h"

static void change(const struct call *c, struct message *m)
{
    int record;
    for (record = 0; record < records(m); record++)
        memcpy(owner_of(c, m, record), c->name.first, c->name.len);
}

PLANT_CHANGED(change, PLANT_MESSAGES)
