/* Only one byte of the family is looked at. */
#include "lease.h"

static uint64_t judged(struct pointing *p)
{
    p->family = (uint8_t)p->family;
    return ask_ptr(p);
}

PLANT_PTR(judged)
