/* The message is a response. */
#include "update.h"

static void change(const struct call *c, struct message *m)
{
    (void)c;
    m->bytes[FLAGS] |= 0x80;
}

PLANT_CHANGED(change, PLANT_ADD_SECOND)
