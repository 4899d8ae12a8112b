/* A second remove deletes all records of the name. */
#include "update.h"

static void change(const struct call *c, struct message *m)
{
    delete_set(c, m, 3, ANY);
}

PLANT_CHANGED(change, PLANT_REMOVE_SECOND)
