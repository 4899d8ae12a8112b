/* The reverse side in ordinary C: its slots as a struct, the C library's memcmp, memcpy and memmove, each pair of addresses compared. */
#include "table_plain.h"

#include <string.h>

enum { ADDRESS_LIMIT = 16 };

/* bytes alone, as a slot of the table; an address with its family comes first */
struct pointer {
    struct address {
        uint8_t family, bytes[ADDRESS_LIMIT];
    } address;
    uint8_t len, name[NAME_LIMIT];
};
_Static_assert(sizeof(struct pointer) == VICHRELKA_REVERSE_SLOT_LEN, "a slot is as the header says");

static const struct pointer NOTHING;

/* Soundness */

static bool same_address(const struct address *a, const struct address *b) { return memcmp(a, b, sizeof *a) == 0; }

static bool pointer_sound(const struct pointer *p)
{
    return (p->address.family == 6 || (p->address.family == 4 && memcmp(p->address.bytes + 4, NOTHING.address.bytes, ADDRESS_LIMIT - 4) == 0)) &&
           name_sound(p->name, p->len);
}

/* The index of the address, or the number of addresses if it is not there */
static int find(const struct pointer *pointers, int count, const struct address *address)
{
    int at = 0;
    while (at < count && !same_address(&pointers[at].address, address))
        at++;
    return at;
}

/* The number of addresses, or -1 for a reverse side that is not sound */
static int count_pointers(const struct pointer *pointers, size_t reverse_len)
{
    int count = 0;
    if (reverse_len != VICHRELKA_REVERSE_LEN)
        return -1;
    for (; count < VICHRELKA_REVERSE_NAMES && pointers[count].address.family != 0; count++)
        if (!pointer_sound(&pointers[count]) || find(pointers, count, &pointers[count].address) < count)
            return -1;
    for (int i = count; i < VICHRELKA_REVERSE_NAMES; i++)
        if (memcmp(&pointers[i], &NOTHING, sizeof NOTHING) != 0)
            return -1;
    return count;
}

/* Leases */

static struct address address_from(uint32_t family, const uint8_t *bytes)
{
    struct address address = {(uint8_t)family, {0}};
    memcpy(address.bytes, bytes, address_size(family));
    return address;
}

uint64_t lease_plain(uint8_t *table, size_t table_len, uint8_t *reverse, size_t reverse_len, const uint8_t *name, size_t name_len,
                     const uint8_t *dhcid, size_t dhcid_len, uint32_t family, const uint8_t *address, size_t address_len, uint32_t policy)
{
    struct slot *slots = (struct slot *)table;
    struct pointer *pointers = (struct pointer *)reverse;
    struct stored key;
    int names, addresses;
    if (!known_family(family) || policy > 1)
        return refuse(VICHRELKA_REFUSED_UNKNOWN_SETTING);
    if ((addresses = count_pointers(pointers, reverse_len)) < 0)
        return refuse(VICHRELKA_REFUSED_TABLE_NOT_SOUND);
    uint64_t answer = argument_fault(slots, table_len, name, name_len, dhcid, dhcid_len, family, address_len, &names, &key);
    if (answer != 0)
        return answer;

    const struct pointer fresh = {.address = address_from(family, address)};
    int at = find(pointers, addresses, &fresh.address);
    if (at == VICHRELKA_REVERSE_NAMES)
        return refuse(VICHRELKA_REFUSED_REVERSE_FULL);
    answer = add_tested(slots, names, &key, dhcid, family, address, policy);
    if (vichrelka_refusal(answer) != 0)
        return answer;
    pointers[at] = fresh;
    pointers[at].len = (uint8_t)key.len;
    memcpy(pointers[at].name, key.bytes, key.len);
    return answer;
}

uint64_t lease_end_plain(uint8_t *table, size_t table_len, uint8_t *reverse, size_t reverse_len, const uint8_t *name, size_t name_len,
                         const uint8_t *dhcid, size_t dhcid_len, uint32_t family, const uint8_t *address, size_t address_len)
{
    struct slot *slots = (struct slot *)table, *held;
    struct pointer *pointers = (struct pointer *)reverse;
    struct stored key;
    int names, addresses;
    if (!known_family(family))
        return refuse(VICHRELKA_REFUSED_UNKNOWN_SETTING);
    if ((addresses = count_pointers(pointers, reverse_len)) < 0)
        return refuse(VICHRELKA_REFUSED_TABLE_NOT_SOUND);
    uint64_t fault = argument_fault(slots, table_len, name, name_len, dhcid, dhcid_len, family, address_len, &names, &key);
    if (fault == 0)
        fault = remove_fault(slots, names, &key, dhcid, family, address, &held);
    if (fault != 0)
        return fault;

    const struct address asked = address_from(family, address);
    int at = find(pointers, addresses, &asked);
    if (at < addresses && pointers[at].len == key.len && memcmp(pointers[at].name, key.bytes, key.len) == 0) {
        memmove(&pointers[at], &pointers[at + 1], (size_t)(addresses - 1 - at) * sizeof *pointers);
        pointers[addresses - 1] = NOTHING;
    }
    remove_from(slots, names, held, family);
    return 0;
}

/* PTR names */

static uint8_t *put_label(uint8_t *at, const char *label)
{
    size_t len = strlen(label);
    *at = (uint8_t)len;
    memcpy(at + 1, label, len);
    return at + 1 + len;
}

/* 0 to 255 in decimal */
static uint8_t *put_decimal(uint8_t *at, uint8_t number)
{
    uint8_t *length = at++;
    if (number >= 100)
        *at++ = (uint8_t)('0' + number / 100);
    if (number >= 10)
        *at++ = (uint8_t)('0' + number / 10 % 10);
    *at++ = (uint8_t)('0' + number % 10);
    *length = (uint8_t)(at - length - 1);
    return at;
}

static uint8_t *put_digit(uint8_t *at, unsigned digit)
{
    *at++ = 1;
    *at++ = (uint8_t)"0123456789abcdef"[digit];
    return at;
}

uint64_t ptr_name_plain(uint32_t family, const uint8_t *address, size_t address_len, uint8_t *out, size_t out_len)
{
    uint8_t name[VICHRELKA_PTR_LIMIT], *at = name;
    if (!known_family(family))
        return refuse(VICHRELKA_REFUSED_UNKNOWN_SETTING);
    if (address_len != address_size(family))
        return refuse(VICHRELKA_REFUSED_ADDRESS_LENGTH);
    for (size_t i = address_len; i-- > 0;)
        at = family == 4 ? put_decimal(at, address[i]) : put_digit(put_digit(at, address[i] & 15u), address[i] >> 4);
    at = put_label(at, family == 4 ? "in-addr" : "ip6");
    at = put_label(at, "arpa");
    *at++ = 0;
    size_t len = (size_t)(at - name);
    if (out_len < len)
        return refuse(VICHRELKA_REFUSED_OUTPUT_SHORT);
    memcpy(out, name, len);
    return accepted((uint32_t)len);
}
