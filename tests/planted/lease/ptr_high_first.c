/* Of each byte the high half comes first. */
#include "lease.h"

static uint64_t judged(struct pointing *p)
{
    uint8_t name[PTR_MOST], digit;
    size_t i;
    if (p->family != 6 || vichrelka_refusal(ptr_with_room(p, name)) != 0)
        return ask_ptr(p);
    for (i = 0; i < 64; i += 4) {
        digit = name[i + 1];
        name[i + 1] = name[i + 3];
        name[i + 3] = digit;
    }
    return other_name(p, name, PTR_MOST);
}

PLANT_PTR(judged)
