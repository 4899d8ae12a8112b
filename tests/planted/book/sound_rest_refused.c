/* A rest behind the blocks is 44. */
#include "book.h"

uint64_t planted_sound(SOUNDING)
{
    return book_len % BLOCK != 0 ? refused(BLOCK_LENGTH, 0) : right_sound(GIVEN_SOUNDING);
}
