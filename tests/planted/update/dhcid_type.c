/* A first add's DHCID has the type 99. */
#include "update.h"

static void change(const struct call *c, struct message *m)
{
    behind_owner(c, m, 2)[TYPE] = 99;
}

PLANT_CHANGED(change, PLANT_ADD_FIRST)
