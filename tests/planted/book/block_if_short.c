/* What fits into a short output is written before it is refused. */
#include "book.h"

uint64_t planted_block(BLOCKING)
{
    uint8_t block[BLOCK];
    uint64_t answer = right_block(GIVEN_BLOCKING);
    if (vichrelka_refusal(answer) == OUTPUT_SHORT && out_len > 0) {
        (void)!right_block(table, table_len, name, name_len, number, block, BLOCK);
        memcpy(out, block, out_len);
    }
    return answer;
}
