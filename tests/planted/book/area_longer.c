/* A longer area is refused. */
#include "book.h"

uint64_t planted_replay(REPLAYING)
{
    uint64_t answer = area_len > TABLE ? right_replay(area, 0, book, book_len) : right_replay(GIVEN_REPLAYING);
    return answer;
}
