/* Any family but 4 is 6. */
#include "message.h"

static void make_six(struct request *r)
{
    if (r->family != 4)
        r->family = 6;
}

PLANT_BEFORE(make_six)
