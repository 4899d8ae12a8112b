/* A byte before the book is read. */
#include "book.h"

static uint64_t after_read(uint64_t answer, const uint8_t *byte)
{
    (void)*(const volatile uint8_t *)byte;
    return answer;
}

PLANT_ANSWER(book_len > 0 && book_len < MOST ? after_read(answer, book - 1) : answer)
