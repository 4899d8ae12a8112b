/* A block's check is cleared in the book while it is compared. */
#include "book.h"

static uint64_t after_clearing(uint64_t answer, const uint8_t *check)
{
    memset((uint8_t *)(uintptr_t)check, 0, BLOCK - CHECKED);
    return answer;
}

PLANT_ANSWER(book_len >= BLOCK && book_len <= MOST ? after_clearing(answer, book + CHECKED) : answer)
