/* The name is written at the end of out. */
#include "lease.h"

static uint64_t judged(struct pointing *p)
{
    uint8_t name[PTR_MOST];
    uint64_t answer = ptr_with_room(p, name);
    if (vichrelka_refusal(answer) != 0 || p->out_len < vichrelka_value(answer))
        return ask_ptr(p);
    memcpy(p->out + p->out_len - vichrelka_value(answer), name, vichrelka_value(answer));
    return answer;
}

PLANT_PTR(judged)
