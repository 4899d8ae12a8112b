/* The whole blocks are tidied before 44 is given. */
#include "book.h"

uint64_t planted_tidy(TIDYING)
{
    uint64_t answer = right_tidy(GIVEN_TIDYING);
    if (vichrelka_refusal(answer) == BLOCK_LENGTH)
        (void)!right_tidy(book, book_len - book_len % BLOCK, out, out_len);
    return answer;
}
