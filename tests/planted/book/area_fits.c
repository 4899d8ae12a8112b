/* The area has to be as long as the names need. */
#include "book.h"

uint64_t planted_replay(REPLAYING)
{
    static uint8_t table[TABLE];
    uint64_t answer = right_replay(GIVEN_REPLAYING);
    if (vichrelka_refusal(answer) != OUTPUT_SHORT || right_replay(table, TABLE, book, book_len) != 0 || area_len < used(table) * SLOT)
        return answer;
    if (area_len > 0)
        memcpy(area, table, area_len);
    return accepted(0);
}
