/* With too many names the first 64 are written before it is refused. */
#include "book.h"

uint64_t planted_replay(REPLAYING)
{
    uint64_t answer = right_replay(GIVEN_REPLAYING);
    if (vichrelka_refusal(answer) == NOT_SOUND && book_len <= MOST && area_len >= TABLE) {
        go_through(book, book_len, judge, step);
        put_table(area);
    }
    return answer;
}
