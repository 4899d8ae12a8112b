/* A name in upper case is not found. */
#include "book.h"

uint64_t planted_block(BLOCKING)
{
    static const uint8_t none[TABLE];
    uint64_t answer = right_block(GIVEN_BLOCKING);
    return vichrelka_refusal(answer) == 0 && has_upper(name, name_len) ? right_block(none, TABLE, name, name_len, number, out, out_len) : answer;
}
