/* A first add asks whether the name has no address of the family. */
#include "update.h"

static void change(const struct call *c, struct message *m)
{
    behind_owner(c, m, 0)[TYPE] = c->family == 4 ? TYPE_A : TYPE_AAAA;
}

PLANT_CHANGED(change, PLANT_ADD_FIRST)
