/* 32 comes before 35. */
#include "load.h"

uint64_t planted_load(LOADING)
{
    uint64_t answer = right_load(GIVEN_LOADING);
    if (vichrelka_refusal(answer) == RECORD_REPEATED) {
        read_names(text, text_len);
        if (name_count > NAMES)
            return refused(FULL, 0);
    }
    return answer;
}
