/* The output has to be as long as the old book. */
#include "book.h"

uint64_t planted_tidy(TIDYING)
{
    static uint8_t whole[TIDIED];
    uint64_t answer = right_tidy(book, book_len, whole, TIDIED);
    return vichrelka_refusal(answer) == 0 && out_len < book_len ? refused(OUTPUT_SHORT, 0) : right_tidy(GIVEN_TIDYING);
}
