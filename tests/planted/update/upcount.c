/* A first add counts an update too many. */
#include "update.h"

static void change(const struct call *c, struct message *m)
{
    (void)c;
    m->bytes[UPCOUNT] = 3;
}

PLANT_CHANGED(change, PLANT_ADD_FIRST)
