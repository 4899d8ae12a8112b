/* Option 52 is overlooked. */
#include "message.h"

static void drop_overload(struct request *r)
{
    uint8_t *m = copied(r);
    m[option4(m, r->message_len, 240, 52)] = 12;
}

PLANT_AFTER(VICHRELKA_REFUSED_OPTION_OVERLOAD, drop_overload)
