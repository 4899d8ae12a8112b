/* The bytes of family 4 come in the order of the address. */
#include "lease.h"

static uint64_t judged(struct pointing *p)
{
    uint8_t other[4];
    size_t i;
    if (p->family != 4 || p->address_len != 4)
        return ask_ptr(p);
    for (i = 0; i < 4; i++)
        other[i] = p->address[3 - i];
    p->address = other;
    return ask_ptr(p);
}

PLANT_PTR(judged)
