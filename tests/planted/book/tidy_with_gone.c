/* Names that are gone are written too, behind those that stand. */
#include "book.h"

uint64_t planted_tidy(TIDYING)
{
    size_t at, count;
    uint64_t answer = right_tidy(GIVEN_TIDYING);
    if (vichrelka_refusal(answer) != 0 || book_len > MOST)
        return answer;
    go_through(book, book_len, judge, step);
    count = walk.count;
    for (at = 0; at < book_len / BLOCK; at++)
        if (book[at * BLOCK + KIND_AT] == 0 && place_of(book + at * BLOCK + SLOT_AT) == walk.count && out_len >= (count + 1) * BLOCK) {
            put_block(out + count * BLOCK, (uint32_t)count, 0, book + at * BLOCK + SLOT_AT);
            count++;
        }
    return accepted((uint32_t)(count * BLOCK));
}
