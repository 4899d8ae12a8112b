/* A second add counts an additional record. */
#include "update.h"

static void change(const struct call *c, struct message *m)
{
    (void)c;
    m->bytes[ADCOUNT] = 1;
}

PLANT_CHANGED(change, PLANT_ADD_SECOND)
