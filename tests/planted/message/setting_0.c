/* With setting 0 the client's name is used as with setting 1. */
#include "message.h"

static void use_client(struct request *r)
{
    if (r->setting == 0)
        r->setting = 1;
}

PLANT_BEFORE(use_client)
