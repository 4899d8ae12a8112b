/* The area's length is kept in 32 bits. */
#include "book.h"

uint64_t planted_replay(REPLAYING)
{
    return right_replay(area, (uint32_t)area_len, book, book_len);
}
