/* A second add deletes the set with class 254 for 255. */
#include "update.h"

static void change(const struct call *c, struct message *m)
{
    behind_owner(c, m, 1)[CLASS] = NONE;
}

PLANT_CHANGED(change, PLANT_ADD_SECOND)
