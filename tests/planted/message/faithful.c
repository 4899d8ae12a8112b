/* No difference: the comparison must find none. */
#include "message.h"

static void keep(struct request *r)
{
    (void)r;
}

PLANT_BEFORE(keep)
