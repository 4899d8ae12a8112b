/* A first add's address has the lifetime 0. */
#include "update.h"

static void change(const struct call *c, struct message *m)
{
    put_lifetime(behind_owner(c, m, 1), 0, 0);
}

PLANT_CHANGED(change, PLANT_ADD_FIRST)
