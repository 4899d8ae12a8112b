/* Up to 74 bytes of out are zeros behind the name. */
#include "lease.h"

static uint64_t judged(struct pointing *p)
{
    uint64_t answer = ask_ptr(p);
    size_t end = p->out_len < PTR_MOST ? p->out_len : PTR_MOST;
    if (vichrelka_refusal(answer) == 0 && end > vichrelka_value(answer))
        memset(p->out + vichrelka_value(answer), 0, end - vichrelka_value(answer));
    return answer;
}

PLANT_PTR(judged)
