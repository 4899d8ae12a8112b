/* Eleven bytes are enough. */
#include "update.h"

static uint64_t judged(struct reading *r)
{
    uint8_t header[HEADER] = {0};
    struct reading other = {r->id, header, HEADER};
    if (r->len < 11 || r->len >= HEADER)
        return ask_answer(r);
    memcpy(header, r->message, r->len);
    return ask_answer(&other);
}

PLANT_ANSWER(judged)
