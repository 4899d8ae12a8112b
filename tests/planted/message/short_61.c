/* Where option 61 is too short, the hardware address stands in for it. */
#include "message.h"

static void drop_61(struct request *r)
{
    uint8_t *m = copied(r);
    size_t option = r->family == 4 ? option4(m, r->message_len, 240, 61) : 0;
    if (option != 0)
        m[option] = 12;
}

PLANT_AFTER(VICHRELKA_REFUSED_NO_IDENTIFIER, drop_61)
