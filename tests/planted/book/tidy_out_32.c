/* The output's length is kept in 32 bits. */
#include "book.h"

uint64_t planted_tidy(TIDYING)
{
    return right_tidy(book, book_len, out, (uint32_t)out_len);
}
