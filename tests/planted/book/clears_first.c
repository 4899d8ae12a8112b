/* The area is cleared before the book is looked at. */
#include "book.h"

uint64_t planted_replay(REPLAYING)
{
    if (area_len >= TABLE)
        memset(area, 0, TABLE);
    return right_replay(GIVEN_REPLAYING);
}
