/* What fits is written though there is too little room. */
#include "lease.h"

static uint64_t judged(struct pointing *p)
{
    uint8_t name[PTR_MOST];
    uint64_t answer = ask_ptr(p);
    if (vichrelka_refusal(answer) == OUTPUT_SHORT && p->out_len > 0) {
        (void)ptr_with_room(p, name);
        memcpy(p->out, name, p->out_len);
    }
    return answer;
}

PLANT_PTR(judged)
