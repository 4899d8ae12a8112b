/* A block is sound if its check is right. */
#include "book.h"

uint64_t planted_sound(SOUNDING)
{
    uint32_t count = 0;
    if (book_len > MOST)
        return right_sound(GIVEN_SOUNDING);
    while (count < book_len / BLOCK && is_sealed(book + count * (size_t)BLOCK))
        count++;
    return accepted(count);
}
