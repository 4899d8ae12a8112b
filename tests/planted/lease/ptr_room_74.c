/* There has to be room for the longest name. */
#include "lease.h"

static uint64_t judged(struct pointing *p)
{
    uint8_t name[PTR_MOST];
    return p->out_len < PTR_MOST && vichrelka_refusal(ptr_with_room(p, name)) == 0 ? refused(OUTPUT_SHORT, 0) : ask_ptr(p);
}

PLANT_PTR(judged)
