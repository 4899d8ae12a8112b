/* Of each name the last block is written as it is, one that says it is gone too. */
#include "book.h"

uint64_t planted_tidy(TIDYING)
{
    size_t at, later, count = 0;
    uint64_t answer = right_tidy(GIVEN_TIDYING);
    if (vichrelka_refusal(answer) != 0 || book_len > MOST)
        return answer;
    for (at = 0; at < book_len / BLOCK; at++) {
        for (later = at + 1; later < book_len / BLOCK && !is_same_name(book + later * BLOCK + SLOT_AT, book + at * BLOCK + SLOT_AT); later++)
            ;
        if (later == book_len / BLOCK && out_len >= (count + 1) * BLOCK) {
            put_block(out + count * BLOCK, (uint32_t)count, book[at * BLOCK + KIND_AT], book + at * BLOCK + SLOT_AT);
            count++;
        }
    }
    return accepted((uint32_t)(count * BLOCK));
}
