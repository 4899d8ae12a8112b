/* With two records of one type, what stands before the second is written before it is refused. */
#include "load.h"

uint64_t planted_load(LOADING)
{
    uint64_t answer = right_load(GIVEN_LOADING);
    if (vichrelka_refusal(answer) == RECORD_REPEATED) {
        read_names(text, text_len);
        load_names(area, area_len);
    }
    return answer;
}
