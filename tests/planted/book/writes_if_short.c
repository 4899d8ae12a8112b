/* Of a table for which the area is short, what fits is written. */
#include "book.h"

uint64_t planted_replay(REPLAYING)
{
    static uint8_t whole[TABLE];
    uint64_t answer = right_replay(GIVEN_REPLAYING);
    if (vichrelka_refusal(answer) == OUTPUT_SHORT && area_len > 0 && right_replay(whole, TABLE, book, book_len) == 0)
        memcpy(area, whole, area_len);
    return answer;
}
