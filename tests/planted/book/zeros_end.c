/* A block of zeros ends a book. */
#include "book.h"

static const uint8_t *shorter(const uint8_t *book, size_t *book_len)
{
    size_t at;
    for (at = 0; *book_len <= MOST && at < *book_len / BLOCK; at++)
        if (is_zero(book + at * BLOCK, BLOCK))
            *book_len = at * BLOCK;
    return book;
}

PLANT_BOOK(shorter)
