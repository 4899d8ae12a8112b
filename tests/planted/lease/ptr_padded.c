/* Every byte of family 4 has three digits. */
#include "lease.h"

static uint64_t judged(struct pointing *p)
{
    uint8_t name[PTR_MOST];
    size_t i, at = 0;
    if (p->family != 4 || vichrelka_refusal(ptr_with_room(p, name)) != 0)
        return ask_ptr(p);
    for (i = 4; i-- > 0; at += 4) {
        name[at] = 3;
        name[at + 1] = (uint8_t)('0' + p->address[i] / 100);
        name[at + 2] = (uint8_t)('0' + p->address[i] / 10 % 10);
        name[at + 3] = (uint8_t)('0' + p->address[i] % 10);
    }
    memcpy(name + at, "\7in-addr\4arpa", 14);
    return other_name(p, name, at + 14);
}

PLANT_PTR(judged)
