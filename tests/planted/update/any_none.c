/* A first add asks for a name in use: class 255 for 254. */
#include "update.h"

static void change(const struct call *c, struct message *m)
{
    behind_owner(c, m, 0)[CLASS] = ANY;
}

PLANT_CHANGED(change, PLANT_ADD_FIRST)
