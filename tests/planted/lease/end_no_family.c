/* An address is looked for without its family. */
#include "lease.h"

static uint64_t judged(struct call *c)
{
    uint8_t *pointer, key[16] = {0};
    uint64_t answer = would(c);
    if (answer != 0)
        return run(c);
    memcpy(key, c->step.address, c->step.address_len);
    for (pointer = c->reverse; pointer < c->reverse + REVERSE && pointer[0] != 0; pointer += POINTER)
        if (memcmp(pointer + ADDRESS_AT, key, 16) == 0)
            break;
    if (pointer < c->reverse + REVERSE && pointer != pointer_of(c) && pointer[0] != 0 && is_this_name(c, pointer)) {
        static uint8_t before[REVERSE];
        memcpy(before, c->reverse, REVERSE);
        answer = run(c);
        memcpy(c->reverse, before, REVERSE);
        drop(c->reverse, pointer);
        return answer;
    }
    return run(c);
}

PLANT_END(judged)
