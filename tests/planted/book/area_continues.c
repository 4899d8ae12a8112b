/* The blocks are replayed behind the names that stood in the area. */
#include "book.h"

uint64_t planted_replay(REPLAYING)
{
    size_t at, old = 0;
    static uint8_t longer[TIDIED + MOST];
    if (area_len >= TABLE && book_len % BLOCK == 0 && book_len <= MOST && vichrelka_refusal(vichrelka_table_count(area, TABLE)) == 0)
        old = used(area);
    for (at = 0; at < old; at++)
        put_block(longer + at * BLOCK, (uint32_t)at, 1, area + at * SLOT);
    for (at = 0; old > 0 && at < book_len / BLOCK; at++) {
        uint8_t *block = longer + (old + at) * BLOCK;
        memcpy(block, book + at * BLOCK, BLOCK);
        if (is_sealed(block)) {
            set_number(block, number_of(block) + (uint32_t)old);
            seal(block);
        }
    }
    return old > 0 ? right_replay(area, area_len, longer, old * BLOCK + book_len) : right_replay(GIVEN_REPLAYING);
}
