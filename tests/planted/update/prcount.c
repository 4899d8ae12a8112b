/* A second remove counts two prerequisites. */
#include "update.h"

static void change(const struct call *c, struct message *m)
{
    (void)c;
    m->bytes[PRCOUNT] = 2;
}

PLANT_CHANGED(change, PLANT_REMOVE_SECOND)
