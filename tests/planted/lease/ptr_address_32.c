/* Only 32 bits of the length of the address are looked at. */
#include "lease.h"

static uint64_t judged(struct pointing *p)
{
    p->address_len = (uint32_t)p->address_len;
    return ask_ptr(p);
}

PLANT_PTR(judged)
