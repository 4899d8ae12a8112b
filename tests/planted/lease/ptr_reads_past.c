/* One byte past the end of the address is read. */
#include "lease.h"

static uint64_t judged(struct pointing *p)
{
    volatile const uint8_t *lent = p->address;
    if (p->address_len == 4)
        (void)lent[4];
    return ask_ptr(p);
}

PLANT_PTR(judged)
