/* For a book of no bytes any area is long enough. */
#include "book.h"

uint64_t planted_replay(REPLAYING)
{
    uint64_t answer = right_replay(GIVEN_REPLAYING);
    if (book_len > 0 || answer == 0)
        return answer;
    if (area_len > 0)
        memset(area, 0, area_len);
    return accepted(0);
}
