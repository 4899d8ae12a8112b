/* An address of family 4 inside one of family 6 is in in-addr.arpa. */
#include "lease.h"

static uint64_t judged(struct pointing *p)
{
    static const uint8_t mapped[12] = {0, 0, 0, 0, 0, 0, 0, 0, 0, 0, 255, 255};
    if (p->family == 6 && p->address_len == 16 && memcmp(p->address, mapped, 12) == 0) {
        p->family = 4;
        p->address += 12;
        p->address_len = 4;
    }
    return ask_ptr(p);
}

PLANT_PTR(judged)
