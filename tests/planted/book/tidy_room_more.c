/* The output has to be a byte longer than what is written. */
#include "book.h"

uint64_t planted_tidy(TIDYING)
{
    static uint8_t whole[TIDIED];
    uint64_t answer = right_tidy(book, book_len, whole, TIDIED);
    return vichrelka_refusal(answer) == 0 && out_len == vichrelka_value(answer) && out_len > 0 ? refused(OUTPUT_SHORT, 0) : right_tidy(GIVEN_TIDYING);
}
