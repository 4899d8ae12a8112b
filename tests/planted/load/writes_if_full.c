/* With too many names, the first 64 are written before it is refused. */
#include "load.h"

uint64_t planted_load(LOADING)
{
    uint64_t answer = right_load(GIVEN_LOADING);
    if (vichrelka_refusal(answer) == FULL) {
        read_names(text, text_len);
        name_count = NAMES;
        load_names(area, area_len);
    }
    return answer;
}
