/* An address is looked for without its family. */
#include "lease.h"

static uint64_t judged(struct call *c)
{
    uint8_t *pointer, key[16] = {0}, *known = pointer_of(c);
    uint64_t answer = run(c);
    if (vichrelka_refusal(answer) != 0 || known != NULL)
        return answer;
    memcpy(key, c->step.address, c->step.address_len);
    for (pointer = c->reverse; pointer < c->reverse + (pointers(c->reverse) - 1) * POINTER; pointer += POINTER)
        if (memcmp(pointer + ADDRESS_AT, key, 16) == 0) {
            put_name(c, pointer);
            drop(c->reverse, c->reverse + (pointers(c->reverse) - 1) * POINTER);
            return answer;
        }
    return answer;
}

PLANT_LEASE(judged)
