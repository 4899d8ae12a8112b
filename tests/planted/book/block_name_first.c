/* 9 comes before 40. */
#include "book.h"

uint64_t planted_block(BLOCKING)
{
    static const uint8_t none[TABLE];
    return block_refusal(none, TABLE, name, name_len) == NO_PROPER_NAME ? refused(NO_PROPER_NAME, 0) : right_block(GIVEN_BLOCKING);
}
