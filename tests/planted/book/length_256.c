/* A book's length is a multiple of 256. */
#include "book.h"

static const uint8_t *whole(const uint8_t *book, size_t *book_len)
{
    if (*book_len % 256 == 0)
        *book_len -= *book_len % BLOCK;
    return book;
}

PLANT_BOOK(whole)
