/* Blocks after which more than 64 names stand are counted. */
#include "book.h"

uint64_t planted_sound(SOUNDING)
{
    if (book_len > MOST)
        return right_sound(GIVEN_SOUNDING);
    go_through(book, book_len, judge, step);
    return accepted((uint32_t)walk.right);
}
