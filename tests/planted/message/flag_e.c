/* Option 81 has a name in wire form without flag E too. */
#include "message.h"

static void set_flag(struct request *r)
{
    uint8_t *m = r->family == 4 && r->message_len >= 240 ? copied(r) : NULL;
    size_t option = m == NULL ? 0 : option4(m, r->message_len, 240, 81);
    if (option != 0 && option + 2 < r->message_len && m[option + 1] > 0)
        m[option + 2] |= 4;
}

PLANT_BEFORE(set_flag)
