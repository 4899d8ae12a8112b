/* The message is a query: opcode 0. */
#include "update.h"

static void change(const struct call *c, struct message *m)
{
    (void)c;
    m->bytes[FLAGS] = 0;
}

PLANT_CHANGED(change, PLANT_MESSAGES)
