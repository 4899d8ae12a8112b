/* The whole blocks of a book are written before 44 is given. */
#include "book.h"

uint64_t planted_replay(REPLAYING)
{
    uint64_t answer = right_replay(GIVEN_REPLAYING);
    if (vichrelka_refusal(answer) == BLOCK_LENGTH)
        (void)!right_replay(area, area_len, book, book_len - book_len % BLOCK);
    return answer;
}
