/* Names of family 6 end in IP6.ARPA, as RFC 3596 spells it. */
#include "lease.h"

static uint64_t judged(struct pointing *p)
{
    uint64_t answer = ask_ptr(p);
    if (answer == accepted(PTR_MOST))
        memcpy(p->out + 64, "\3IP6\4ARPA", 9);
    return answer;
}

PLANT_PTR(judged)
