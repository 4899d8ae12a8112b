/* The output may be a byte short. */
#include "book.h"

uint64_t planted_tidy(TIDYING)
{
    static uint8_t whole[TIDIED];
    uint64_t answer = right_tidy(book, book_len, whole, TIDIED);
    if (vichrelka_refusal(answer) != 0 || out_len + 1 != vichrelka_value(answer))
        return right_tidy(GIVEN_TIDYING);
    memcpy(out, whole, out_len);
    return answer;
}
