/* The messages for a name server in ordinary C: each message as a list of records, which are written one behind the other. */
#include "update_plain.h"

#include <string.h>

#include "table_plain.h"

enum { HEADER_LEN = 12, ZONE_FIELDS = 4, RECORD_FIELDS = 10, LIFETIME = 3600, UPDATE = 5 };
enum type { TYPE_A = 1, TYPE_SOA = 6, TYPE_AAAA = 28, TYPE_DHCID = 49, TYPE_ANY = 255 };
enum class { CLASS_IN = 1, CLASS_NONE = 254, CLASS_ANY = 255 };

/* a record but for its owner, which is the name in all of them */
struct record {
    enum type type;
    enum class class;
    uint32_t lifetime;
    const uint8_t *data;
    size_t len;
};

/* Arguments */

/* a byte of a label in lower case, 0 for a byte that no label has */
#define LETTER(lower, upper) [lower] = lower, [upper] = lower
static const uint8_t LOWER[256] = {
    LETTER('a', 'A'), LETTER('b', 'B'), LETTER('c', 'C'), LETTER('d', 'D'), LETTER('e', 'E'), LETTER('f', 'F'), LETTER('g', 'G'), LETTER('h', 'H'),
    LETTER('i', 'I'), LETTER('j', 'J'), LETTER('k', 'K'), LETTER('l', 'L'), LETTER('m', 'M'), LETTER('n', 'N'), LETTER('o', 'O'), LETTER('p', 'P'),
    LETTER('q', 'Q'), LETTER('r', 'R'), LETTER('s', 'S'), LETTER('t', 'T'), LETTER('u', 'U'), LETTER('v', 'V'), LETTER('w', 'W'), LETTER('x', 'X'),
    LETTER('y', 'Y'), LETTER('z', 'Z'), ['0'] = '0', ['1'] = '1', ['2'] = '2', ['3'] = '3', ['4'] = '4', ['5'] = '5', ['6'] = '6', ['7'] = '7',
    ['8'] = '8', ['9'] = '9', ['-'] = '-', ['_'] = '_',
};

/* A proper name in lower case; whether it is one */
static bool lower_name(struct stored *out, const uint8_t *name, size_t len)
{
    if (len < 3 || len > NAME_LIMIT || name[len - 1] != 0)
        return false;
    for (size_t at = 0; at < len - 1;) {
        size_t label_end = at + 1 + name[at];
        if (name[at] == 0 || name[at] > LABEL_LIMIT || label_end >= len)
            return false;
        out->bytes[at] = name[at];
        for (at++; at < label_end; at++)
            if ((out->bytes[at] = LOWER[name[at]]) == 0)
                return false;
    }
    out->bytes[len - 1] = 0;
    out->len = len;
    return true;
}

/* Whether the zone is the name's last labels, or all of them: its bytes begin where a label does. */
static bool within(const struct stored *name, const struct stored *zone)
{
    size_t at = 0;
    while (name->len - at > zone->len)
        at += 1 + name->bytes[at];
    return name->len - at == zone->len && memcmp(name->bytes + at, zone->bytes, zone->len) == 0;
}

struct names {
    struct stored name, zone;
};

/* The refusal for name, zone or DHCID, or 0; with no fault the names in lower case come with it. */
static uint64_t names_fault(const uint8_t *zone, size_t zone_len, const uint8_t *name, size_t name_len, const uint8_t *dhcid, size_t dhcid_len,
                            struct names *names)
{
    if (!lower_name(&names->name, name, name_len) || !lower_name(&names->zone, zone, zone_len) || !within(&names->name, &names->zone))
        return refuse(VICHRELKA_REFUSED_NO_PROPER_NAME);
    if (dhcid_len != VICHRELKA_DHCID_LEN || !proper_dhcid(dhcid))
        return refuse(VICHRELKA_REFUSED_NOT_A_DHCID);
    return 0;
}

/* Messages */

static uint8_t *put_two(uint8_t *at, uint32_t number)
{
    at[0] = (uint8_t)(number >> 8);
    at[1] = (uint8_t)number;
    return at + 2;
}

static uint8_t *put_bytes(uint8_t *at, const uint8_t *bytes, size_t len)
{
    memcpy(at, bytes, len);
    return at + len;
}

static uint8_t *put_record(uint8_t *at, const struct stored *owner, const struct record *r)
{
    at = put_bytes(at, owner->bytes, owner->len);
    at = put_two(at, r->type);
    at = put_two(at, r->class);
    at = put_two(at, r->lifetime >> 16);
    at = put_two(at, r->lifetime);
    at = put_two(at, (uint32_t)r->len);
    return r->len > 0 ? put_bytes(at, r->data, r->len) : at;
}

/* So many prerequisites and so many updates, one behind the other */
static uint64_t write_message(uint16_t id, const struct names *names, int prerequisites, int updates, const struct record *records, uint8_t *out,
                              size_t out_len)
{
    size_t len = HEADER_LEN + names->zone.len + ZONE_FIELDS;
    for (int i = 0; i < prerequisites + updates; i++)
        len += names->name.len + RECORD_FIELDS + records[i].len;
    if (out_len < len)
        return refuse(VICHRELKA_REFUSED_OUTPUT_SHORT);
    uint8_t *at = put_two(out, id);
    at = put_two(at, UPDATE << 11);
    at = put_two(at, 1);
    at = put_two(at, (uint32_t)prerequisites);
    at = put_two(at, (uint32_t)updates);
    at = put_two(at, 0);
    at = put_bytes(at, names->zone.bytes, names->zone.len);
    at = put_two(at, TYPE_SOA);
    at = put_two(at, CLASS_IN);
    for (int i = 0; i < prerequisites + updates; i++)
        at = put_record(at, &names->name, &records[i]);
    return accepted((uint32_t)len);
}

static enum type address_type(uint32_t family) { return family == 4 ? TYPE_A : TYPE_AAAA; }

/* One that names an address, and has three records */
static uint64_t client_message(uint16_t id, const uint8_t *zone, size_t zone_len, const uint8_t *name, size_t name_len, const uint8_t *dhcid,
                               size_t dhcid_len, uint32_t family, size_t address_len, int prerequisites, const struct record *records, uint8_t *out,
                               size_t out_len)
{
    struct names names;
    if (!known_family(family))
        return refuse(VICHRELKA_REFUSED_UNKNOWN_SETTING);
    uint64_t fault = names_fault(zone, zone_len, name, name_len, dhcid, dhcid_len, &names);
    if (fault != 0)
        return fault;
    if (address_len != address_size(family))
        return refuse(VICHRELKA_REFUSED_ADDRESS_LENGTH);
    return write_message(id, &names, prerequisites, 3 - prerequisites, records, out, out_len);
}

uint64_t update_add_first_plain(uint16_t id, const uint8_t *zone, size_t zone_len, const uint8_t *name, size_t name_len, const uint8_t *dhcid,
                                size_t dhcid_len, uint32_t family, const uint8_t *address, size_t address_len, uint8_t *out, size_t out_len)
{
    const struct record records[] = {
        {TYPE_ANY, CLASS_NONE, 0, NULL, 0},
        {address_type(family), CLASS_IN, LIFETIME, address, address_len},
        {TYPE_DHCID, CLASS_IN, LIFETIME, dhcid, dhcid_len},
    };
    return client_message(id, zone, zone_len, name, name_len, dhcid, dhcid_len, family, address_len, 1, records, out, out_len);
}

uint64_t update_add_second_plain(uint16_t id, const uint8_t *zone, size_t zone_len, const uint8_t *name, size_t name_len, const uint8_t *dhcid,
                                 size_t dhcid_len, uint32_t family, const uint8_t *address, size_t address_len, uint8_t *out, size_t out_len)
{
    const struct record records[] = {
        {TYPE_DHCID, CLASS_IN, 0, dhcid, dhcid_len},
        {address_type(family), CLASS_ANY, 0, NULL, 0},
        {address_type(family), CLASS_IN, LIFETIME, address, address_len},
    };
    return client_message(id, zone, zone_len, name, name_len, dhcid, dhcid_len, family, address_len, 1, records, out, out_len);
}

uint64_t update_remove_first_plain(uint16_t id, const uint8_t *zone, size_t zone_len, const uint8_t *name, size_t name_len, const uint8_t *dhcid,
                                   size_t dhcid_len, uint32_t family, const uint8_t *address, size_t address_len, uint8_t *out, size_t out_len)
{
    const struct record records[] = {
        {TYPE_DHCID, CLASS_IN, 0, dhcid, dhcid_len},
        {address_type(family), CLASS_IN, 0, address, address_len},
        {address_type(family), CLASS_NONE, 0, address, address_len},
    };
    return client_message(id, zone, zone_len, name, name_len, dhcid, dhcid_len, family, address_len, 2, records, out, out_len);
}

uint64_t update_remove_second_plain(uint16_t id, const uint8_t *zone, size_t zone_len, const uint8_t *name, size_t name_len, const uint8_t *dhcid,
                                    size_t dhcid_len, uint8_t *out, size_t out_len)
{
    struct names names;
    uint64_t fault = names_fault(zone, zone_len, name, name_len, dhcid, dhcid_len, &names);
    const struct record records[] = {
        {TYPE_DHCID, CLASS_IN, 0, dhcid, dhcid_len},
        {TYPE_A, CLASS_NONE, 0, NULL, 0},
        {TYPE_AAAA, CLASS_NONE, 0, NULL, 0},
        {TYPE_DHCID, CLASS_NONE, 0, dhcid, dhcid_len},
    };
    return fault != 0 ? fault : write_message(id, &names, 3, 1, records, out, out_len);
}

/* Answers */

uint64_t update_answer_plain(uint16_t id, const uint8_t *answer, size_t answer_len)
{
    if (answer_len < HEADER_LEN || answer[2] >> 7 != 1 || (answer[2] >> 3 & 15) != UPDATE || (answer[0] << 8 | answer[1]) != id)
        return refuse(VICHRELKA_REFUSED_NOT_THE_ANSWER);
    switch (answer[3] & 15) {
    case VICHRELKA_CODE_DONE:
    case VICHRELKA_CODE_NAME_IN_USE:
    case VICHRELKA_CODE_SET_STANDS:
    case VICHRELKA_CODE_NO_SUCH_SET:
        return accepted(answer[3] & 15);
    default:
        return refuse(VICHRELKA_REFUSED_ANOTHER_CODE);
    }
}
