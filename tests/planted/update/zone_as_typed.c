/* The zone is written as it is typed. */
#include "update.h"

static void change(const struct call *c, struct message *m)
{
    memcpy(m->bytes + HEADER, c->zone.first, c->zone.len);
}

PLANT_CHANGED(change, PLANT_MESSAGES)
