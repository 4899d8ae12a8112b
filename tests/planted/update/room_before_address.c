/* 13 comes before 16. */
#include "update.h"

static uint64_t judged(struct call *c)
{
    struct call other = *c;
    static const uint8_t zeros[16];
    other.address.first = zeros;
    other.address.len = size_of(c->family);
    return fault_of(c) == ADDRESS_LENGTH && c->out_len < needed(&other) ? refused(OUTPUT_SHORT, 0) : run(c);
}

PLANT_WITH_ADDRESS(judged)
