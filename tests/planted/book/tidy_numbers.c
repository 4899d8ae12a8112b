/* The blocks keep the numbers that they had. */
#include "book.h"

uint64_t planted_tidy(TIDYING)
{
    size_t at, which;
    uint64_t answer = right_tidy(GIVEN_TIDYING);
    for (at = 0; book_len <= MOST && at < vichrelka_value(answer) / BLOCK; at++)
        for (which = 0; which < book_len / BLOCK; which++)
            if (memcmp(book + which * BLOCK + SLOT_AT, out + at * BLOCK + SLOT_AT, SLOT) == 0)
                memcpy(out + at * BLOCK, book + which * BLOCK, BLOCK);
    return answer;
}
