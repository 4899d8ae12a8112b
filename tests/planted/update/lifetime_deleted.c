/* A first remove deletes with the lifetime 3,600. */
#include "update.h"

static void change(const struct call *c, struct message *m)
{
    put_lifetime(behind_owner(c, m, 2), 0x0e, 0x10);
}

PLANT_CHANGED(change, PLANT_REMOVE_FIRST)
