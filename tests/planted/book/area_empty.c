/* A book of no bytes leaves the area as it was. */
#include "book.h"

uint64_t planted_replay(REPLAYING)
{
    return book_len == 0 && area_len >= TABLE ? accepted(0) : right_replay(GIVEN_REPLAYING);
}
