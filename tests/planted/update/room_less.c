/* One byte too little room is enough. */
#include "update.h"

static uint64_t judged(struct call *c)
{
    struct message m;
    if (write_with_room(c, &m) != 0 || c->out_len + 1 != m.len)
        return run(c);
    memcpy(c->out, m.bytes, c->out_len);
    return accepted((uint32_t)m.len);
}

PLANT_MESSAGES(judged)
