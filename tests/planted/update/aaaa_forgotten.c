/* A second remove does not ask for an AAAA. */
#include "update.h"

static void change(const struct call *c, struct message *m)
{
    drop(c, m, 2);
}

PLANT_CHANGED(change, PLANT_REMOVE_SECOND)
