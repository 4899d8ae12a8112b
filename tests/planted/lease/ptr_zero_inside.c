/* A zero between the digits of a byte is left out. */
#include "lease.h"

static uint64_t judged(struct pointing *p)
{
    uint8_t name[PTR_MOST];
    uint64_t answer = ptr_with_room(p, name);
    size_t at, len = vichrelka_value(answer);
    if (p->family != 4 || vichrelka_refusal(answer) != 0)
        return ask_ptr(p);
    for (at = 0; name[at] <= 3; at += 1u + name[at])
        if (name[at] == 3 && name[at + 2] == '0') {
            name[at] = 2;
            memmove(name + at + 2, name + at + 3, len - at - 3);
            len--;
        }
    return other_name(p, name, len);
}

PLANT_PTR(judged)
