/* The number is in the high half of an answer, value and place in the low one, as they were in version 0.1.0. */
#include "book.h"

uint64_t planted_block(BLOCKING)
{
    return exchanged(right_block(GIVEN_BLOCKING));
}

uint64_t planted_replay(REPLAYING)
{
    return exchanged(right_replay(GIVEN_REPLAYING));
}

uint64_t planted_tidy(TIDYING)
{
    return exchanged(right_tidy(GIVEN_TIDYING));
}

uint64_t planted_sound(SOUNDING)
{
    return exchanged(right_sound(GIVEN_SOUNDING));
}
