/* Any setting but 0 is 1. */
#include "message.h"

static void make_one(struct request *r)
{
    r->setting = r->setting != 0;
}

PLANT_BEFORE(make_one)
