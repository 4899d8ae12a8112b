/* Leading zeros of a family 6 address are left out, as people write it. */
#include "lease.h"

static uint64_t judged(struct pointing *p)
{
    uint8_t name[PTR_MOST];
    size_t end = 64;
    if (p->family != 6 || vichrelka_refusal(ptr_with_room(p, name)) != 0)
        return ask_ptr(p);
    while (end > 2 && name[end - 1] == '0')
        end -= 2;
    memmove(name + end, name + 64, 10);
    return other_name(p, name, end + 10);
}

PLANT_PTR(judged)
