/* Family 6 goes by bytes, two digits a label. */
#include "lease.h"

static uint64_t judged(struct pointing *p)
{
    uint8_t name[PTR_MOST];
    size_t i;
    if (p->family != 6 || vichrelka_refusal(ptr_with_room(p, name)) != 0)
        return ask_ptr(p);
    for (i = 0; i < 16; i++) {
        uint8_t low = name[4 * i + 1], high = name[4 * i + 3];
        name[3 * i] = 2;
        name[3 * i + 1] = high;
        name[3 * i + 2] = low;
    }
    memmove(name + 48, name + 64, 10);
    return other_name(p, name, 58);
}

PLANT_PTR(judged)
