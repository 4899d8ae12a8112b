/* With setting 1 the site's name is used if it is proper, and only else the client's. */
#include "message.h"

static void prefer_site(struct request *r)
{
    struct request site = *r;
    site.setting = 0;
    if (r->setting == 1 && vichrelka_refusal(ask_name(&site)) == 0)
        r->setting = 0;
}

PLANT_BEFORE(prefer_site)
