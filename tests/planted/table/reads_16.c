/* An address of either family is read as sixteen bytes. */
#include "table.h"

static uint64_t judged(struct step *s)
{
    volatile const uint8_t *lent = s->address;
    if (s->address_len == 4)
        (void)lent[15];
    return ask(s);
}

PLANT_ADD(judged)
