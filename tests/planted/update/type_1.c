/* A first add has type 1 for an AAAA too. */
#include "update.h"

static void change(const struct call *c, struct message *m)
{
    behind_owner(c, m, 1)[TYPE] = TYPE_A;
}

PLANT_CHANGED(change, PLANT_ADD_FIRST)
