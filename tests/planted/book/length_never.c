/* What is behind the last whole block is not looked at. */
#include "book.h"

static const uint8_t *whole(const uint8_t *book, size_t *book_len)
{
    *book_len -= *book_len % BLOCK;
    return book;
}

PLANT_BOOK(whole)
