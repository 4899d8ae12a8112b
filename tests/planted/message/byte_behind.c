/* Of the client's name in option 81, a byte behind its end is overlooked. */
#include "message.h"

static void drop_byte(struct request *r)
{
    struct request shorter = *r;
    uint8_t *m = r->family == 4 && r->message_len >= 240 && r->setting == 1 ? copied(&shorter) : NULL;
    size_t option = m == NULL ? 0 : option4(m, r->message_len, 240, 81), last = 0;
    uint64_t answer;
    if (option != 0 && option + 1 < r->message_len && m[option + 1] > 0)
        last = option + 1 + m[option + 1];
    if (last == 0 || last >= r->message_len)
        return;
    m[option + 1]--;
    m[last] = 0;
    answer = ask_name(&shorter);
    if (vichrelka_refusal(answer) == 0 && vichrelka_name_source(answer) == VICHRELKA_SOURCE_MESSAGE)
        *r = shorter;
}

PLANT_BEFORE(drop_byte)
