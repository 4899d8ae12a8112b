/* With too many names the first 64 are written before it is refused. */
#include "book.h"

uint64_t planted_tidy(TIDYING)
{
    uint64_t answer = right_tidy(GIVEN_TIDYING);
    if (vichrelka_refusal(answer) == NOT_SOUND)
        (void)!right_tidy(book, vichrelka_value(vichrelka_book_sound(book, book_len)) * (size_t)BLOCK, out, out_len);
    return answer;
}
