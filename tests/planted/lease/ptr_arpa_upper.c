/* The last labels are in upper case, as RFC 1035 spells them. */
#include "lease.h"

static uint64_t judged(struct pointing *p)
{
    uint64_t answer = ask_ptr(p);
    size_t i;
    for (i = 0; vichrelka_value(answer) > 14 && i < 13; i++)
        if (p->out[vichrelka_value(answer) - 2 - i] >= 'a')
            p->out[vichrelka_value(answer) - 2 - i] = (uint8_t)(p->out[vichrelka_value(answer) - 2 - i] - 32);
    return p->family == 4 ? answer : ask_ptr(p);
}

PLANT_PTR(judged)
