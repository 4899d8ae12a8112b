/* What fits into a short output is written before it is refused. */
#include "book.h"

uint64_t planted_tidy(TIDYING)
{
    static uint8_t whole[TIDIED];
    uint64_t answer = right_tidy(GIVEN_TIDYING);
    if (vichrelka_refusal(answer) == OUTPUT_SHORT && out_len > 0) {
        (void)!right_tidy(book, book_len, whole, TIDIED);
        memcpy(out, whole, out_len);
    }
    return answer;
}
