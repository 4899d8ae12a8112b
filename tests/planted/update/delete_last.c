/* A second add deletes the set behind the add. */
#include "update.h"

static void change(const struct call *c, struct message *m)
{
    exchange_last(c, m);
}

PLANT_CHANGED(change, PLANT_ADD_SECOND)
