/* The names before a bad block are written before it is refused. */
#include "book.h"

uint64_t planted_tidy(TIDYING)
{
    uint64_t answer = right_tidy(GIVEN_TIDYING);
    if ((vichrelka_refusal(answer) == WRONG_CHECK || vichrelka_refusal(answer) == WRONG_FIELD) && book_len <= MOST) {
        go_through(book, book_len, judge, step);
        (void)!right_tidy(book, walk.right * BLOCK, out, out_len);
    }
    return answer;
}
