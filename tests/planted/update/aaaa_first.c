/* A second remove asks for an AAAA before it asks for an A. */
#include "update.h"

static void change(const struct call *c, struct message *m)
{
    behind_owner(c, m, 1)[TYPE] = TYPE_AAAA;
    behind_owner(c, m, 2)[TYPE] = TYPE_A;
}

PLANT_CHANGED(change, PLANT_REMOVE_SECOND)
