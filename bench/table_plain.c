/* The table of names in ordinary C: the slots as a struct, the C library's memcmp, memcpy and memmove, each pair of names compared. */
#include "table_plain.h"

#include <string.h>

_Static_assert(sizeof(struct slot) == VICHRELKA_SLOT_LEN, "a slot is as the header says");

static const struct slot NOTHING;

/* what may stand in a label, in lower case */
static const bool IN_LABEL[256] = {['a' ... 'z'] = true, ['0' ... '9'] = true, ['-'] = true, ['_'] = true};

/* Soundness */

/* for at most a slot's bytes */
static bool zeros(const void *bytes, size_t len) { return memcmp(bytes, &NOTHING, len) == 0; }

/* proper and in lower case */
static bool proper(const uint8_t *name, size_t len)
{
    size_t at = 0;
    while (at < len && name[at] != 0) {
        size_t label = name[at];
        if (label > LABEL_LIMIT || label >= len - at)
            return false;
        bool fits = true;
        for (size_t i = 1; i <= label; i++)
            fits &= IN_LABEL[name[at + i]];
        if (!fits)
            return false;
        at += 1 + label;
    }
    return at > 0 && at + 1 == len;
}

bool name_sound(const uint8_t *name, size_t len) { return proper(name, len) && zeros(name + len, NAME_LIMIT - len); }

bool fields_sound(const struct slot *s)
{
    return name_sound(s->name, s->len) && s->flags <= 7 &&
           (s->flags & HAS_A || zeros(s->a, sizeof s->a)) && (s->flags & HAS_AAAA || zeros(s->aaaa, sizeof s->aaaa)) &&
           (s->flags & HAS_DHCID ? proper_dhcid(s->dhcid) : zeros(s->dhcid, sizeof s->dhcid));
}

static bool holds(const struct slot *s, const uint8_t *name, size_t len) { return s->len == len && memcmp(s->name, name, len) == 0; }

int count_sound(const struct slot *slots, size_t table_len)
{
    int count = 0;
    if (table_len != VICHRELKA_TABLE_LEN)
        return -1;
    for (; count < VICHRELKA_TABLE_NAMES && slots[count].len != 0; count++) {
        if (slots[count].flags == 0 || !fields_sound(&slots[count]))
            return -1;
        for (int i = 0; i < count; i++)
            if (holds(&slots[i], slots[count].name, slots[count].len))
                return -1;
    }
    for (int i = count; i < VICHRELKA_TABLE_NAMES; i++)
        if (!zeros(&slots[i], sizeof slots[i]))
            return -1;
    return count;
}

/* Arguments */

static bool read_name(struct stored *out, const uint8_t *name, size_t len)
{
    if (len > NAME_LIMIT)
        return false;
    /* a label's length is never a letter's code, so folding all bytes spoils none */
    for (size_t i = 0; i < len; i++)
        out->bytes[i] = name[i] >= 'A' && name[i] <= 'Z' ? name[i] + ('a' - 'A') : name[i];
    out->len = len;
    return proper(out->bytes, len);
}

static uint8_t address_flag(uint32_t family) { return family == 4 ? HAS_A : HAS_AAAA; }
static uint8_t *address_of(struct slot *s, uint32_t family) { return family == 4 ? s->a : s->aaaa; }

/* The refusal for the DHCID or the address, or 0 */
static uint64_t client_fault(const uint8_t *dhcid, size_t dhcid_len, uint32_t family, size_t address_len)
{
    if (dhcid_len != VICHRELKA_DHCID_LEN || !proper_dhcid(dhcid))
        return refuse(VICHRELKA_REFUSED_NOT_A_DHCID);
    if (address_len != address_size(family))
        return refuse(VICHRELKA_REFUSED_ADDRESS_LENGTH);
    return 0;
}

/* The slot of the name, or null */
static struct slot *find(struct slot *slots, int count, const struct stored *name)
{
    for (int i = 0; i < count; i++)
        if (holds(&slots[i], name->bytes, name->len))
            return &slots[i];
    return NULL;
}

/* Calls */

uint64_t argument_fault(const struct slot *slots, size_t table_len, const uint8_t *name, size_t name_len, const uint8_t *dhcid, size_t dhcid_len,
                        uint32_t family, size_t address_len, int *count, struct stored *key)
{
    *count = count_sound(slots, table_len);
    if (*count < 0)
        return refuse(VICHRELKA_REFUSED_TABLE_NOT_SOUND);
    if (!read_name(key, name, name_len))
        return refuse(VICHRELKA_REFUSED_NO_PROPER_NAME);
    return client_fault(dhcid, dhcid_len, family, address_len);
}

static void set_address(struct slot *s, uint32_t family, const uint8_t *address)
{
    memcpy(address_of(s, family), address, address_size(family));
    s->flags |= address_flag(family);
}

uint64_t add_tested(struct slot *slots, int count, const struct stored *key, const uint8_t *dhcid, uint32_t family, const uint8_t *address,
                    uint32_t policy)
{
    struct slot *s = find(slots, count, key);
    if (!s) {
        if (count == VICHRELKA_TABLE_NAMES)
            return refuse(VICHRELKA_REFUSED_TABLE_FULL);
        s = &slots[count];
        s->len = (uint8_t)key->len;
        memcpy(s->name, key->bytes, key->len);
        memcpy(s->dhcid, dhcid, sizeof s->dhcid);
        s->flags = HAS_DHCID;
        set_address(s, family, address);
        return 0;
    }
    if (!(s->flags & HAS_DHCID))
        return refuse(VICHRELKA_REFUSED_KEPT_BY_HAND);
    if (memcmp(s->dhcid, dhcid, sizeof s->dhcid) == 0) {
        set_address(s, family, address);
        return accepted(1);
    }
    if (policy == VICHRELKA_FIRST_WINS)
        return refuse(VICHRELKA_REFUSED_HELD_BY_ANOTHER);
    memset(s->a, 0, sizeof s->a);
    memset(s->aaaa, 0, sizeof s->aaaa);
    memcpy(s->dhcid, dhcid, sizeof s->dhcid);
    s->flags = HAS_DHCID;
    set_address(s, family, address);
    return accepted(2);
}

uint64_t table_add_plain(uint8_t *table, size_t table_len, const uint8_t *name, size_t name_len, const uint8_t *dhcid, size_t dhcid_len,
                         uint32_t family, const uint8_t *address, size_t address_len, uint32_t policy)
{
    struct slot *slots = (struct slot *)table;
    struct stored key;
    int count;
    if (!known_family(family) || policy > 1)
        return refuse(VICHRELKA_REFUSED_UNKNOWN_SETTING);
    uint64_t fault = argument_fault(slots, table_len, name, name_len, dhcid, dhcid_len, family, address_len, &count, &key);
    return fault != 0 ? fault : add_tested(slots, count, &key, dhcid, family, address, policy);
}

/* A slot of so many that are used; later ones move up */
static void take_out(struct slot *slots, int count, struct slot *s)
{
    struct slot *last = &slots[count - 1];
    memmove(s, s + 1, (size_t)(last - s) * sizeof *s);
    memset(last, 0, sizeof *last);
}

uint64_t remove_fault(struct slot *slots, int count, const struct stored *key, const uint8_t *dhcid, uint32_t family, const uint8_t *address,
                      struct slot **held)
{
    struct slot *s = find(slots, count, key);
    if (!s)
        return refuse(VICHRELKA_REFUSED_NAME_NOT_HELD);
    if (!(s->flags & HAS_DHCID))
        return refuse(VICHRELKA_REFUSED_KEPT_BY_HAND);
    if (memcmp(s->dhcid, dhcid, sizeof s->dhcid) != 0)
        return refuse(VICHRELKA_REFUSED_HELD_BY_ANOTHER);
    if (!(s->flags & address_flag(family)) || memcmp(address_of(s, family), address, address_size(family)) != 0)
        return refuse(VICHRELKA_REFUSED_ADDRESS_DIFFERS);
    *held = s;
    return 0;
}

void remove_from(struct slot *slots, int count, struct slot *held, uint32_t family)
{
    memset(address_of(held, family), 0, address_size(family));
    held->flags &= (uint8_t)~address_flag(family);
    /* the DHCID goes with the last address, and so the name (RFC 4703, section 5.5) */
    if (held->flags == HAS_DHCID)
        take_out(slots, count, held);
}

uint64_t table_remove_plain(uint8_t *table, size_t table_len, const uint8_t *name, size_t name_len, const uint8_t *dhcid, size_t dhcid_len,
                            uint32_t family, const uint8_t *address, size_t address_len)
{
    struct slot *slots = (struct slot *)table, *held;
    struct stored key;
    int count;
    if (!known_family(family))
        return refuse(VICHRELKA_REFUSED_UNKNOWN_SETTING);
    uint64_t fault = argument_fault(slots, table_len, name, name_len, dhcid, dhcid_len, family, address_len, &count, &key);
    if (fault == 0)
        fault = remove_fault(slots, count, &key, dhcid, family, address, &held);
    if (fault == 0)
        remove_from(slots, count, held, family);
    return fault;
}

uint64_t table_clear_plain(uint8_t *table, size_t table_len, const uint8_t *name, size_t name_len)
{
    struct slot *slots = (struct slot *)table;
    struct stored key;
    int count = count_sound(slots, table_len);
    if (count < 0)
        return refuse(VICHRELKA_REFUSED_TABLE_NOT_SOUND);
    if (!read_name(&key, name, name_len))
        return refuse(VICHRELKA_REFUSED_NO_PROPER_NAME);

    struct slot *s = find(slots, count, &key);
    if (!s)
        return refuse(VICHRELKA_REFUSED_NAME_NOT_HELD);
    take_out(slots, count, s);
    return 0;
}

uint64_t table_find_plain(const uint8_t *table, size_t table_len, const uint8_t *name, size_t name_len)
{
    const struct slot *slots = (const struct slot *)table;
    struct stored key;
    int count = count_sound(slots, table_len);
    if (count < 0)
        return refuse(VICHRELKA_REFUSED_TABLE_NOT_SOUND);
    if (!read_name(&key, name, name_len))
        return refuse(VICHRELKA_REFUSED_NO_PROPER_NAME);
    for (int i = 0; i < count; i++)
        if (holds(&slots[i], key.bytes, key.len))
            return accepted((uint32_t)i);
    return refuse(VICHRELKA_REFUSED_NAME_NOT_HELD);
}

uint64_t table_count_plain(const uint8_t *table, size_t table_len)
{
    int count = count_sound((const struct slot *)table, table_len);
    return count < 0 ? refuse(VICHRELKA_REFUSED_TABLE_NOT_SOUND) : accepted((uint32_t)count);
}
