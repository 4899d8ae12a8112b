/* A first remove does not ask for the address. */
#include "update.h"

static void change(const struct call *c, struct message *m)
{
    drop(c, m, 1);
}

PLANT_CHANGED(change, PLANT_REMOVE_FIRST)
