/* A second remove does not ask for the DHCID. */
#include "update.h"

static void change(const struct call *c, struct message *m)
{
    drop(c, m, 0);
}

PLANT_CHANGED(change, PLANT_REMOVE_SECOND)
