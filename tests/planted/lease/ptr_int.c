/* Names of family 6 end in ip6.int, as before RFC 3596. */
#include "lease.h"

static uint64_t judged(struct pointing *p)
{
    uint8_t name[PTR_MOST];
    if (p->family != 6 || vichrelka_refusal(ptr_with_room(p, name)) != 0)
        return ask_ptr(p);
    memcpy(name + 68, "\3int", 5);
    return other_name(p, name, PTR_MOST - 1);
}

PLANT_PTR(judged)
