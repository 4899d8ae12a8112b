/* What stood in the area has to be a table. */
#include "book.h"

uint64_t planted_replay(REPLAYING)
{
    uint64_t answer = right_replay(area, 0, book, book_len);
    if (vichrelka_refusal(answer) == OUTPUT_SHORT && area_len >= TABLE && vichrelka_refusal(vichrelka_table_count(area, TABLE)) != 0)
        return refused(NOT_SOUND, 0);
    return right_replay(GIVEN_REPLAYING);
}
