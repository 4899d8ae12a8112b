/* The digits a to f are in upper case. */
#include "lease.h"

static uint64_t judged(struct pointing *p)
{
    uint64_t answer = ask_ptr(p);
    size_t i;
    for (i = 0; answer == accepted(PTR_MOST) && i < 64; i++)
        if (p->out[i] >= 'a' && p->out[i] <= 'f')
            p->out[i] = (uint8_t)(p->out[i] - 32);
    return answer;
}

PLANT_PTR(judged)
