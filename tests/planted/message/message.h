/*
 * What the shims of the calls on DHCP messages share. A shim defines one of the two calls or both; most say only how a request is changed
 * before the library sees it, and PLANT_BEFORE or PLANT_AFTER makes the calls of that.
 */
#ifndef MESSAGE_H
#define MESSAGE_H

#include "../../../bench/sha256_plain.h"
#include "../planted.h"

#define right_name __real_vichrelka_name
#define right_dhcid __real_vichrelka_dhcid
#define planted_name __wrap_vichrelka_name
#define planted_dhcid __wrap_vichrelka_dhcid

/* The parameters that both calls have, and what is handed on of them */
#define REQUEST uint32_t family, uint32_t setting, const uint8_t *message, size_t message_len, const uint8_t *site, size_t site_len
#define GIVEN family, setting, message, message_len, site, site_len

uint64_t right_name(REQUEST);
uint64_t planted_name(REQUEST);
uint64_t right_dhcid(REQUEST, uint8_t *out, size_t out_len);
uint64_t planted_dhcid(REQUEST, uint8_t *out, size_t out_len);

struct request {
    uint32_t family, setting;
    const uint8_t *message;
    size_t message_len;
    const uint8_t *site;
    size_t site_len;
    /* how many bytes were taken off the message's beginning: a name in it stands so much further on */
    uint32_t skipped;
};

static inline uint64_t ask_name(const struct request *r)
{
    uint64_t answer = right_name(r->family, r->setting, r->message, r->message_len, r->site, r->site_len);
    int in_message = vichrelka_refusal(answer) == 0 && vichrelka_name_source(answer) == VICHRELKA_SOURCE_MESSAGE;
    return in_message ? accepted(vichrelka_value(answer) + (r->skipped << 8)) : answer;
}

static inline uint64_t ask_dhcid(const struct request *r, uint8_t *out, size_t out_len)
{
    return right_dhcid(r->family, r->setting, r->message, r->message_len, r->site, r->site_len, out, out_len);
}

/* Both calls, of the request as `change` leaves it. */
#define PLANT_BEFORE(change) \
    uint64_t planted_name(REQUEST) \
    { \
        struct request r = {GIVEN, 0}; \
        change(&r); \
        return ask_name(&r); \
    } \
    uint64_t planted_dhcid(REQUEST, uint8_t *out, size_t out_len) \
    { \
        struct request r = {GIVEN, 0}; \
        change(&r); \
        return ask_dhcid(&r, out, out_len); \
    }

/* Both calls; where the library gives this refusal, of the request as `change` leaves it, if it is then accepted. */
#define PLANT_AFTER(refusal, change) \
    uint64_t planted_name(REQUEST) \
    { \
        struct request r = {GIVEN, 0}; \
        uint64_t answer = ask_name(&r), other; \
        if (vichrelka_refusal(answer) != (refusal)) \
            return answer; \
        change(&r); \
        other = ask_name(&r); \
        return vichrelka_refusal(other) == 0 ? other : answer; \
    } \
    uint64_t planted_dhcid(REQUEST, uint8_t *out, size_t out_len) \
    { \
        struct request r = {GIVEN, 0}; \
        uint64_t answer = ask_dhcid(&r, out, out_len), other; \
        if (vichrelka_refusal(answer) != (refusal)) \
            return answer; \
        change(&r); \
        other = ask_dhcid(&r, out, out_len); \
        return vichrelka_refusal(other) == 0 ? other : answer; \
    }

/* The message to change before the library sees it; NULL for one beyond the limit, which nobody copies. There is room for a byte more. */
static uint8_t copy[VICHRELKA_MESSAGE_LIMIT + 1];

static inline uint8_t *copied(struct request *r)
{
    if (r->message_len > VICHRELKA_MESSAGE_LIMIT)
        return NULL;
    if (r->message_len > 0)
        memcpy(copy, r->message, r->message_len);
    r->message = copy;
    return copy;
}

/* Where an option's code stands in a DHCPv4 message, from an offset on; 0 if there is none up to End. Code 255 finds End. */
static inline size_t option4(const uint8_t *message, size_t len, size_t at, uint8_t code)
{
    while (at < len && message[at] != code && message[at] != 255)
        at += message[at] == 0 ? 1 : at + 1 < len ? 2 + (size_t)message[at + 1] : 1;
    return at < len && message[at] == code ? at : 0;
}

/* The same in a level of a DHCPv6 message, which ends before `end`. */
static inline size_t option6(const uint8_t *message, size_t at, size_t end, unsigned code)
{
    for (; at + 4 <= end; at += 4 + (size_t)message[at + 2] * 256 + message[at + 3])
        if ((unsigned)message[at] * 256 + message[at + 1] == code)
            return at;
    return 0;
}

/* Where the innermost level starts and ends, as far as relays lead. */
static inline size_t innermost(const uint8_t *message, size_t len, size_t *end)
{
    size_t start = 0;
    *end = len;
    while (start < *end && message[start] == 12) {
        size_t option = option6(message, start + 34, *end, 9), relayed_len;
        if (option == 0)
            break;
        relayed_len = (size_t)message[option + 2] * 256 + message[option + 3];
        start = option + 4;
        *end = start + relayed_len < *end ? start + relayed_len : *end;
    }
    return start;
}

/* What is hashed for an accepted request, but with the name as it was written; which type of identifier it is */
struct hashed {
    uint8_t bytes[1024];
    size_t identifier_len, len;
    uint8_t type;
};

static inline void add_bytes(struct hashed *h, const uint8_t *bytes, size_t len)
{
    memcpy(h->bytes + h->len, bytes, len);
    h->len += len;
}

static inline struct hashed hashed_of(REQUEST, uint64_t name)
{
    struct hashed h = {{0}, 0, 0, 0};
    size_t option, end, len;
    if (family == 6) {
        option = innermost(message, message_len, &end);
        option = option6(message, option + 4, end, 1);
        add_bytes(&h, message + option + 4, (size_t)message[option + 2] * 256 + message[option + 3]);
        h.type = 2;
    } else if ((option = option4(message, message_len, 240, 61)) != 0) {
        len = message[option + 1];
        h.type = message[option + 2] == 255 && len >= 8 && len <= 135 ? 2 : 1;
        add_bytes(&h, message + option + (h.type == 2 ? 7 : 2), h.type == 2 ? len - 5 : len);
    } else {
        add_bytes(&h, message + 1, 1);
        add_bytes(&h, message + 28, message[2]);
    }
    h.identifier_len = h.len;
    add_bytes(&h, (vichrelka_name_source(name) == VICHRELKA_SOURCE_SITE ? site : message) + vichrelka_name_start(name), vichrelka_name_len(name));
    (void)setting;
    (void)site_len;
    return h;
}

/* The name of what is hashed, in lower case */
static inline void lower_name(struct hashed *h)
{
    size_t i;
    for (i = h->identifier_len; i < h->len; i++)
        if (h->bytes[i] >= 'A' && h->bytes[i] <= 'Z')
            h->bytes[i] = (uint8_t)(h->bytes[i] + 32);
}

static inline void write_dhcid(uint8_t type, const uint8_t *bytes, size_t len, uint8_t *out)
{
    out[0] = 0;
    out[1] = type;
    out[2] = 1;
    sha256_plain(bytes, len, out + 3);
}

/* Writes the DHCID again as if an option 61 of so many bytes that begins with 255 had a DUID. */
static inline void take_for_duid(size_t len, REQUEST, uint8_t *out)
{
    size_t option = family == 4 ? option4(message, message_len, 240, 61) : 0;
    if (option != 0 && message[option + 1] == len && message[option + 2] == 255) {
        struct hashed h = hashed_of(GIVEN, vichrelka_name(GIVEN));
        lower_name(&h);
        write_dhcid(2, h.bytes + 5, h.len - 5, out);
    }
}

#endif
