/* The address is turned round where it was lent. */
#include "lease.h"

static uint64_t judged(struct pointing *p)
{
    uint64_t answer = ask_ptr(p);
    uint8_t *lent = (uint8_t *)(uintptr_t)p->address, first;
    if (vichrelka_refusal(answer) == 0) {
        first = lent[0];
        lent[0] = lent[p->address_len - 1];
        lent[p->address_len - 1] = first;
    }
    return answer;
}

PLANT_PTR(judged)
