/* The blocks are written at the end of out. */
#include "book.h"

uint64_t planted_tidy(TIDYING)
{
    static uint8_t whole[TIDIED];
    size_t len = vichrelka_value(right_tidy(book, book_len, whole, TIDIED));
    return out_len > len && len > 0 ? right_tidy(book, book_len, out + out_len - len, len) : right_tidy(GIVEN_TIDYING);
}
