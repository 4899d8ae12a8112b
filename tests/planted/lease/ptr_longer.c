/* Of a longer address the first bytes count. */
#include "lease.h"

static uint64_t judged(struct pointing *p)
{
    size_t size = size_of(p->family);
    if (p->address_len > size)
        p->address_len = size;
    return ask_ptr(p);
}

PLANT_PTR(judged)
