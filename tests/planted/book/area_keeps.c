/* The slots behind the last name stay as they were. */
#include "book.h"

uint64_t planted_replay(REPLAYING)
{
    static uint8_t table[TABLE];
    uint64_t answer = right_replay(area_len < TABLE ? area : table, area_len < TABLE ? area_len : TABLE, book, book_len);
    if (answer == 0)
        memcpy(area, table, used(table) * SLOT);
    return answer;
}
