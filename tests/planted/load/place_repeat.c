/* 35 has a place: that of the second record. */
#include "load.h"

uint64_t planted_load(LOADING)
{
    size_t one, other;
    uint64_t answer = right_load(GIVEN_LOADING);
    if (vichrelka_refusal(answer) != RECORD_REPEATED)
        return answer;
    read_records(text, text_len);
    for (other = 1;; other++)
        for (one = 0; one < other; one++)
            if (is_repeat(one, other))
                return refused(RECORD_REPEATED, (uint32_t)(records[other].entry - text));
}
