/* A first remove says that there is no zone. */
#include "update.h"

static void change(const struct call *c, struct message *m)
{
    (void)c;
    m->bytes[ZOCOUNT] = 0;
}

PLANT_CHANGED(change, PLANT_REMOVE_FIRST)
