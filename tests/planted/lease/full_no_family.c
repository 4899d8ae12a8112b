/* For 46 an address is looked for without its family. */
#include "lease.h"

static uint64_t judged(struct call *c)
{
    uint8_t *pointer, key[16] = {0};
    uint64_t answer = run(c);
    if (vichrelka_refusal(answer) != REVERSE_FULL || vichrelka_refusal(would_with_none(c)) != 0)
        return answer;
    memcpy(key, c->step.address, c->step.address_len);
    for (pointer = c->reverse; pointer < c->reverse + REVERSE; pointer += POINTER)
        if (memcmp(pointer + ADDRESS_AT, key, 16) == 0) {
            drop(c->reverse, pointer);
            return run(c);
        }
    return answer;
}

PLANT_LEASE(judged)
