/* A second add deletes this address, and not the set. */
#include "update.h"

static void change(const struct call *c, struct message *m)
{
    uint8_t *at = behind_owner(c, m, 1);
    at[CLASS] = NONE;
    at[LENGTH] = (uint8_t)c->address.len;
    insert(m, at + DATA, c->address.first, c->address.len);
}

PLANT_CHANGED(change, PLANT_ADD_SECOND)
