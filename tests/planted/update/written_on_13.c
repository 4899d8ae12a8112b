/* As much of the message as there is room for is written, and then it is refused. */
#include "update.h"

static uint64_t judged(struct call *c)
{
    struct message m;
    if (write_with_room(c, &m) == 0 && c->out_len < m.len && c->out_len > 0)
        memcpy(c->out, m.bytes, c->out_len);
    return run(c);
}

PLANT_MESSAGES(judged)
