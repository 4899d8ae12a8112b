/* A first remove deletes the whole set. */
#include "update.h"

static void change(const struct call *c, struct message *m)
{
    delete_set(c, m, 2, c->family == 4 ? TYPE_A : TYPE_AAAA);
}

PLANT_CHANGED(change, PLANT_REMOVE_FIRST)
