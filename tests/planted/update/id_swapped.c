/* The number has its low byte first. */
#include "update.h"

static void change(const struct call *c, struct message *m)
{
    m->bytes[0] = (uint8_t)c->id;
    m->bytes[1] = (uint8_t)(c->id >> 8);
}

PLANT_CHANGED(change, PLANT_MESSAGES)
