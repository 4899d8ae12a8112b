/* Two records of one type are found only up to the 65th name. */
#include "load.h"

static int is_before_65(size_t record)
{
    record_count = record + 1;
    put_together();
    return name_count <= NAMES;
}

uint64_t planted_load(LOADING)
{
    size_t one, other, count;
    uint64_t answer = right_load(GIVEN_LOADING);
    if (vichrelka_refusal(answer) != RECORD_REPEATED)
        return answer;
    read_records(text, text_len);
    count = record_count;
    for (other = 1; other < count && is_before_65(other); other++)
        for (one = 0; one < other; one++)
            if (is_repeat(one, other))
                return answer;
    return refused(FULL, 0);
}
