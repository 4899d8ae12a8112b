/* The place of a bad block is its offset. */
#include "book.h"

static uint64_t with_place(uint64_t answer, const uint8_t *book, size_t book_len)
{
    uint32_t number = vichrelka_refusal(answer);
    if ((number != WRONG_CHECK && number != WRONG_FIELD) || book_len > MOST)
        return answer;
    go_through(book, book_len, judge, step);
    return refused(number, (uint32_t)(walk.right * BLOCK));
}

PLANT_ANSWER(with_place(answer, book, book_len))
