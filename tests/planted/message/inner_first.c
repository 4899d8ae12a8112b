/* A relay's message is judged before what is around it. */
#include "message.h"

static uint64_t inside_refusal(const struct request *r)
{
    size_t option = r->family == 6 && r->message_len >= 38 && r->message_len <= VICHRELKA_MESSAGE_LIMIT && r->message[0] == 12
        ? option6(r->message, 34, r->message_len, 9) : 0;
    struct request inside = *r;
    if (option == 0)
        return 0;
    inside.message = r->message + option + 4;
    inside.message_len = (size_t)r->message[option + 2] * 256 + r->message[option + 3];
    if (inside.message_len < 4 || inside.message_len > r->message_len - option - 4)
        return 0;
    return vichrelka_refusal(ask_name(&inside)) == 0 ? 0 : ask_name(&inside);
}

uint64_t planted_name(REQUEST)
{
    struct request r = {GIVEN, 0};
    uint64_t inside = inside_refusal(&r);
    return inside != 0 ? inside : ask_name(&r);
}

uint64_t planted_dhcid(REQUEST, uint8_t *out, size_t out_len)
{
    struct request r = {GIVEN, 0};
    uint64_t inside = inside_refusal(&r);
    return inside != 0 ? inside : ask_dhcid(&r, out, out_len);
}
