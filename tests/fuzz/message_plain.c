/* The name and the DHCID of a request, from document 01 (docs/RULES.md, 3 to 5) and the RFCs that it names, in ordinary C. Nothing of crates/ was read for it. */
#include <stdbool.h>
#include <string.h>

#include "../../bench/sha256_plain.h"
#include "plain.h"

enum { RELAY_FORWARD = 12, MOST_RELAYS = 8 };

/* An option: its data, and how often it is there */
struct option {
    const uint8_t *data;
    size_t len;
    int count;
};

static void seen(struct option *o, const uint8_t *data, size_t len)
{
    o->data = data;
    o->len = len;
    o->count++;
}

/* What a message says. The name may be no proper one; NULL if there is none. */
struct request {
    uint8_t type, identifier[256];
    size_t identifier_len, name_len;
    const uint8_t *name;
};

static void set_identifier(struct request *r, uint8_t type, const uint8_t *bytes, size_t len)
{
    r->type = type;
    r->identifier_len = len;
    memcpy(r->identifier, bytes, len);
}

/* DHCPv4; the refusal's number, or 0 */
static unsigned read4(const uint8_t *m, size_t len, struct request *r)
{
    struct option options[256] = {{0}};
    size_t at = 240;
    if (len < 240 || len > 2048)
        return 1;
    if (m[0] != 1 || memcmp(m + 236, "\x63\x82\x53\x63", 4) != 0)
        return 2;
    if (m[2] > 16)
        return 3;
    for (;;) {
        if (at >= len)
            return 4;
        uint8_t code = m[at++];
        if (code == 255)
            break;
        if (code == 0)
            continue;
        if (at >= len || m[at] > len - at - 1)
            return 4;
        seen(&options[code], m + at + 1, m[at]);
        at += 1 + (size_t)m[at];
    }
    if (options[52].count > 1 || options[53].count > 1 || options[61].count > 1 || options[81].count > 1)
        return 5;
    if (options[52].count == 1)
        return 6;
    if (options[53].count == 0 || options[53].len != 1 || options[53].data[0] != 3)
        return 7;

    const struct option *id = &options[61], *fqdn = &options[81];
    if (id->count == 0) {
        if (m[2] == 0)
            return 8;
        r->type = 0;
        r->identifier[0] = m[1];
        memcpy(r->identifier + 1, m + 28, m[2]);
        r->identifier_len = 1 + (size_t)m[2];
    } else if (id->len < 2) {
        return 8;
    } else if (id->data[0] == 255 && id->len >= 8 && id->len <= 135) {
        set_identifier(r, 2, id->data + 5, id->len - 5);
    } else {
        set_identifier(r, 1, id->data, id->len);
    }
    if (fqdn->count == 1 && fqdn->len >= 3 && (fqdn->data[0] & 4) != 0) {
        r->name = fqdn->data + 3;
        r->name_len = fqdn->len - 3;
    }
    return 0;
}

static size_t two_bytes(const uint8_t *at) { return (size_t)at[0] << 8 | at[1]; }

/* DHCPv6, level by level */
static unsigned read6(const uint8_t *m, size_t len, struct request *r)
{
    if (len < 4 || len > 2048)
        return 1;
    for (int relays = 0;; relays++) {
        struct option id = {0}, relayed = {0}, fqdn = {0};
        if (len == 0)
            return 4;
        bool is_relay = m[0] == RELAY_FORWARD;
        if (!is_relay && m[0] != 3 && m[0] != 5 && m[0] != 6)
            return 7;
        if (is_relay && relays == MOST_RELAYS)
            return 11;
        size_t at = is_relay ? 34 : 4;
        if (len < at)
            return 4;
        while (at < len) {
            if (len - at < 4 || two_bytes(m + at + 2) > len - at - 4)
                return 4;
            size_t code = two_bytes(m + at), data_len = two_bytes(m + at + 2);
            struct option *o = code == 1 ? &id : code == 9 ? &relayed : code == 39 ? &fqdn : NULL;
            if (o)
                seen(o, m + at + 4, data_len);
            at += 4 + data_len;
        }
        if (is_relay) {
            if (relayed.count != 1)
                return relayed.count == 0 ? 4 : 5;
            m = relayed.data;
            len = relayed.len;
            continue;
        }
        if (id.count > 1 || fqdn.count > 1)
            return 5;
        if (id.count == 0 || id.len < 3 || id.len > 130)
            return 8;
        set_identifier(r, 2, id.data, id.len);
        if (fqdn.count == 1 && fqdn.len > 0) {
            r->name = fqdn.data + 1;
            r->name_len = fqdn.len - 1;
        }
        return 0;
    }
}

static bool in_label(uint8_t c)
{
    return (c >= 'a' && c <= 'z') || (c >= 'A' && c <= 'Z') || (c >= '0' && c <= '9') || c == '-' || c == '_';
}

static bool proper_name(const uint8_t *name, size_t len)
{
    size_t at = 0;
    if (len < 3 || len > 255)
        return false;
    while (name[at] != 0) {
        size_t next = at + 1 + name[at];
        if (name[at] > 63 || next >= len)
            return false;
        for (at++; at < next; at++)
            if (!in_label(name[at]))
                return false;
    }
    return at == len - 1;
}

/* The refusal, or 0 with the chosen name in the request */
static unsigned choose(uint32_t family, uint32_t setting, const uint8_t *message, size_t message_len, const uint8_t *site, size_t site_len,
                       struct request *r, bool *is_site)
{
    memset(r, 0, sizeof *r);
    if ((family != 4 && family != 6) || setting > 1)
        return 12;
    unsigned number = family == 4 ? read4(message, message_len, r) : read6(message, message_len, r);
    if (number != 0)
        return number;
    *is_site = setting == 0 || r->name == NULL || !proper_name(r->name, r->name_len);
    if (*is_site) {
        r->name = site;
        r->name_len = site_len;
    }
    return !*is_site || proper_name(site, site_len) ? 0 : 9;
}

uint64_t name_plain(uint32_t family, uint32_t setting, const uint8_t *message, size_t message_len, const uint8_t *site, size_t site_len)
{
    struct request r;
    bool is_site;
    unsigned number = choose(family, setting, message, message_len, site, site_len, &r, &is_site);
    if (number != 0)
        return refuse(number);
    uint32_t start = is_site ? 0 : (uint32_t)(r.name - message);
    return accepted((is_site ? 1u << 30 : 0) | start << 8 | (uint32_t)r.name_len);
}

uint64_t dhcid_plain(uint32_t family, uint32_t setting, const uint8_t *message, size_t message_len, const uint8_t *site, size_t site_len,
                     uint8_t *out, size_t out_len)
{
    struct request r;
    bool is_site;
    uint8_t hashed[512];
    unsigned number = choose(family, setting, message, message_len, site, site_len, &r, &is_site);
    if (number != 0)
        return refuse(number);
    if (out_len < VICHRELKA_DHCID_LEN)
        return refuse(13);
    memcpy(hashed, r.identifier, r.identifier_len);
    for (size_t i = 0; i < r.name_len; i++)
        hashed[r.identifier_len + i] = r.name[i] >= 'A' && r.name[i] <= 'Z' ? r.name[i] + 32 : r.name[i];
    out[0] = 0;
    out[1] = r.type;
    out[2] = 1;
    sha256_plain(hashed, r.identifier_len + r.name_len, out + 3);
    return accepted(VICHRELKA_DHCID_LEN);
}
