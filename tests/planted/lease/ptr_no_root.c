/* The zero byte at the end is not written, nor counted. */
#include "lease.h"

static uint64_t judged(struct pointing *p)
{
    uint8_t name[PTR_MOST];
    uint64_t answer = ptr_with_room(p, name);
    return vichrelka_refusal(answer) == 0 ? other_name(p, name, vichrelka_value(answer) - 1) : answer;
}

PLANT_PTR(judged)
