/* A DHCPDISCOVER is a request too. */
#include "message.h"

static void make_request(struct request *r)
{
    uint8_t *m = copied(r);
    size_t option = r->family == 4 ? option4(m, r->message_len, 240, 53) : 0;
    if (option != 0 && m[option + 2] == 1)
        m[option + 2] = 3;
}

PLANT_AFTER(VICHRELKA_REFUSED_NOT_A_REQUEST, make_request)
