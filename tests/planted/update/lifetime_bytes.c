/* A second add's lifetime has its low byte first. */
#include "update.h"

static void change(const struct call *c, struct message *m)
{
    put_lifetime(behind_owner(c, m, 2), 0, 0);
    behind_owner(c, m, 2)[LIFETIME] = 0x10;
    behind_owner(c, m, 2)[LIFETIME + 1] = 0x0e;
}

PLANT_CHANGED(change, PLANT_ADD_SECOND)
