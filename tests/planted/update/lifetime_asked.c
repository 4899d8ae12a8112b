/* A second add's prerequisite has the lifetime 3,600. */
#include "update.h"

static void change(const struct call *c, struct message *m)
{
    put_lifetime(behind_owner(c, m, 0), 0x0e, 0x10);
}

PLANT_CHANGED(change, PLANT_ADD_SECOND)
