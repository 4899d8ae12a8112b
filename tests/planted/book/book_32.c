/* A book's length is kept in 32 bits. */
#include "book.h"

static const uint8_t *shorter(const uint8_t *book, size_t *book_len)
{
    *book_len = (uint32_t)*book_len;
    return book;
}

PLANT_BOOK(shorter)
