/* With a rest behind the blocks none is sound. */
#include "book.h"

uint64_t planted_sound(SOUNDING)
{
    return book_len % BLOCK != 0 ? accepted(0) : right_sound(GIVEN_SOUNDING);
}
