/* One byte too little room is enough. */
#include "lease.h"

static uint64_t judged(struct pointing *p)
{
    uint8_t name[PTR_MOST];
    uint64_t answer = ptr_with_room(p, name);
    if (vichrelka_refusal(answer) == 0 && p->out_len + 1 == vichrelka_value(answer)) {
        memcpy(p->out, name, vichrelka_value(answer));
        return answer;
    }
    return ask_ptr(p);
}

PLANT_PTR(judged)
