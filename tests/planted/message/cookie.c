/* Nobody looks at the magic cookie. */
#include "message.h"

static void mend_cookie(struct request *r)
{
    memcpy(copied(r) + 236, "\x63\x82\x53\x63", 4);
}

PLANT_AFTER(VICHRELKA_REFUSED_NOT_BOOTREQUEST, mend_cookie)
