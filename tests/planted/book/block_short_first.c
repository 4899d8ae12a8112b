/* 13 comes before 40 and 9. */
#include "book.h"

uint64_t planted_block(BLOCKING)
{
    return out_len < BLOCK ? refused(OUTPUT_SHORT, 0) : right_block(GIVEN_BLOCKING);
}
