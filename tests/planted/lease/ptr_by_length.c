/* The length of the address decides its family. */
#include "lease.h"

static uint64_t judged(struct pointing *p)
{
    if (p->family == 4 || p->family == 6)
        p->family = p->address_len == 4 ? 4 : p->address_len == 16 ? 6 : p->family;
    return ask_ptr(p);
}

PLANT_PTR(judged)
