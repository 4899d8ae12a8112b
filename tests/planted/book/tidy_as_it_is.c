/* A book without a name that is gone is copied as it is. */
#include "book.h"

uint64_t planted_tidy(TIDYING)
{
    size_t at;
    uint64_t answer = right_tidy(GIVEN_TIDYING);
    for (at = 0; at < book_len / BLOCK && vichrelka_refusal(answer) == 0; at++)
        if (book[at * BLOCK + KIND_AT] == 0)
            return answer;
    if (vichrelka_refusal(answer) != 0 || book_len > out_len || book_len == 0)
        return answer;
    memcpy(out, book, book_len);
    return accepted((uint32_t)book_len);
}
