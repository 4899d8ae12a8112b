/* The half bytes of family 6 come in the order of the address. */
#include "lease.h"

static uint64_t judged(struct pointing *p)
{
    uint8_t name[PTR_MOST], digit;
    size_t i;
    if (p->family != 6 || vichrelka_refusal(ptr_with_room(p, name)) != 0)
        return ask_ptr(p);
    for (i = 0; i < 32; i += 2) {
        digit = name[i + 1];
        name[i + 1] = name[63 - i];
        name[63 - i] = digit;
    }
    return other_name(p, name, PTR_MOST);
}

PLANT_PTR(judged)
