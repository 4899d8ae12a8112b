/* What stands before a bad block is written before it is refused. */
#include "book.h"

uint64_t planted_replay(REPLAYING)
{
    uint64_t answer = right_replay(GIVEN_REPLAYING);
    if ((vichrelka_refusal(answer) == WRONG_CHECK || vichrelka_refusal(answer) == WRONG_FIELD) && book_len <= MOST && area_len >= TABLE) {
        go_through(book, book_len, judge, step);
        put_table(area);
    }
    return answer;
}
