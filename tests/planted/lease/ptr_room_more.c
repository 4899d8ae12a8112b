/* One byte more than the name has is asked for. */
#include "lease.h"

static uint64_t judged(struct pointing *p)
{
    uint8_t name[PTR_MOST];
    uint64_t answer = ptr_with_room(p, name);
    return vichrelka_refusal(answer) == 0 && p->out_len <= vichrelka_value(answer) ? refused(OUTPUT_SHORT, 0) : ask_ptr(p);
}

PLANT_PTR(judged)
