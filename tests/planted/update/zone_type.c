/* The zone is named with type ANY. */
#include "update.h"

static void change(const struct call *c, struct message *m)
{
    m->bytes[HEADER + c->zone.len + TYPE] = ANY;
}

PLANT_CHANGED(change, PLANT_MESSAGES)
