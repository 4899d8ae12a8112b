/*
 * What the shims of the calls on the table of names share. A shim is a function of a step, which asks the library with the step as it is or
 * changed; PLANT_ADD, PLANT_REMOVE, PLANT_CLEAR, PLANT_FIND, PLANT_COUNT or several of them make the calls of it. Most that take a damaged table for
 * a sound one say only how it is mended. A file of the three steps is also one of find or of count where another includes it behind find.h or count.h.
 */
#ifndef TABLE_H
#define TABLE_H

#include "../planted.h"

#define right_add __real_vichrelka_table_add
#define right_remove __real_vichrelka_table_remove
#define right_clear __real_vichrelka_table_clear
#define right_find __real_vichrelka_table_find
#define right_count __real_vichrelka_table_count
#define planted_add __wrap_vichrelka_table_add
#define planted_remove __wrap_vichrelka_table_remove
#define planted_clear __wrap_vichrelka_table_clear
#define planted_find __wrap_vichrelka_table_find
#define planted_count __wrap_vichrelka_table_count

/* The parameters that the calls have, and what is handed on of them */
#define HOLDER uint8_t *table, size_t table_len, const uint8_t *name, size_t name_len
#define CLIENT HOLDER, const uint8_t *dhcid, size_t dhcid_len, uint32_t family, const uint8_t *address, size_t address_len
#define ASKED const uint8_t *table, size_t table_len
#define GIVEN_HOLDER table, table_len, name, name_len
#define GIVEN_CLIENT GIVEN_HOLDER, dhcid, dhcid_len, family, address, address_len

uint64_t right_add(CLIENT, uint32_t policy);
uint64_t planted_add(CLIENT, uint32_t policy);
uint64_t right_remove(CLIENT);
uint64_t planted_remove(CLIENT);
uint64_t right_clear(HOLDER);
uint64_t planted_clear(HOLDER);
uint64_t right_find(ASKED, const uint8_t *name, size_t name_len);
uint64_t planted_find(ASKED, const uint8_t *name, size_t name_len);
uint64_t right_count(ASKED);
uint64_t planted_count(ASKED);

enum { NAMES = 64, SLOT = 312, TABLE = NAMES * SLOT, DHCID = 35 };

/* Where the fields of a slot stand; the name's length comes first */
enum { NAME_AT = 1, FLAGS_AT = 256, A_AT = 257, AAAA_AT = 261, DHCID_AT = 277 };

enum { HAS_A = 1, HAS_AAAA = 2, HAS_DHCID = 4 };

/* Document 01's numbers (docs/RULES.md, 7.3 to 7.5), in the order in which the steps give them */
enum {
    UNKNOWN_SETTING = 12,
    NOT_SOUND = 40,
    NO_PROPER_NAME = 9,
    NO_DHCID = 15,
    ADDRESS_LENGTH = 16,
    FULL = 32,
    NAME_UNKNOWN = 33,
    BY_HAND = 31,
    HELD_BY_ANOTHER = 30,
    OTHER_ADDRESS = 34
};

struct step {
    uint64_t (*right)(const struct step *s); /* the library's call */
    uint8_t *table;
    size_t table_len;
    const uint8_t *name;
    size_t name_len;
    const uint8_t *dhcid;
    size_t dhcid_len;
    uint32_t family;
    const uint8_t *address;
    size_t address_len;
    uint32_t policy;
};

static inline uint64_t ask_add(const struct step *s)
{
    return right_add(s->table, s->table_len, s->name, s->name_len, s->dhcid, s->dhcid_len, s->family, s->address, s->address_len, s->policy);
}

static inline uint64_t ask_remove(const struct step *s)
{
    return right_remove(s->table, s->table_len, s->name, s->name_len, s->dhcid, s->dhcid_len, s->family, s->address, s->address_len);
}

static inline uint64_t ask_clear(const struct step *s)
{
    return right_clear(s->table, s->table_len, s->name, s->name_len);
}

static inline uint64_t ask_find(const struct step *s)
{
    return right_find(s->table, s->table_len, s->name, s->name_len);
}

static inline uint64_t ask_count(const struct step *s)
{
    return right_count(s->table, s->table_len);
}

#define PLANT_ADD(answer) \
    uint64_t planted_add(CLIENT, uint32_t policy) \
    { \
        struct step s = {ask_add, GIVEN_CLIENT, policy}; \
        return answer(&s); \
    }

#define PLANT_REMOVE(answer) \
    uint64_t planted_remove(CLIENT) \
    { \
        struct step s = {ask_remove, GIVEN_CLIENT, 0}; \
        return answer(&s); \
    }

#define PLANT_CLEAR(answer) \
    uint64_t planted_clear(HOLDER) \
    { \
        struct step s = {ask_clear, GIVEN_HOLDER, NULL, 0, 0, NULL, 0, 0}; \
        return answer(&s); \
    }

#define PLANT_FIND(answer) \
    uint64_t planted_find(ASKED, const uint8_t *name, size_t name_len) \
    { \
        struct step s = {ask_find, (uint8_t *)(uintptr_t)table, table_len, name, name_len, NULL, 0, 0, NULL, 0, 0}; \
        return answer(&s); \
    }

#define PLANT_COUNT(answer) \
    uint64_t planted_count(ASKED) \
    { \
        struct step s = {ask_count, (uint8_t *)(uintptr_t)table, table_len, NULL, 0, NULL, 0, 0, NULL, 0, 0}; \
        return answer(&s); \
    }

/* The calls that change a table, and all calls */
#ifndef PLANT_STEPS
#define PLANT_STEPS(answer) PLANT_ADD(answer) PLANT_REMOVE(answer) PLANT_CLEAR(answer)
#endif
#define PLANT_ALL(answer) PLANT_STEPS(answer) PLANT_FIND(answer) PLANT_COUNT(answer)

static inline uint64_t ask(const struct step *s)
{
    return s->right(s);
}

/* What the library would answer; the table stays as it is. */
static inline uint64_t ask_only(const struct step *s)
{
    static uint8_t copy[TABLE];
    struct step other = *s;
    if (s->table_len != TABLE)
        return ask(s);
    memcpy(copy, s->table, TABLE);
    other.table = copy;
    return ask(&other);
}

/* The steps, where the library takes the table for not sound: of a copy as `mend` leaves it, which is what the table then holds. The shims of write
   (planted/load/load.h) have this for their own call, and some of them are the same files. */
#ifndef PLANT_MENDED
#define PLANT_MENDED(mend) \
    static uint64_t answer_mended(struct step *s) \
    { \
        static uint8_t copy[TABLE]; \
        struct step other = *s; \
        uint64_t answer = ask(s); \
        if (vichrelka_refusal(answer) != NOT_SOUND || s->table_len != TABLE) \
            return answer; \
        memcpy(copy, s->table, TABLE); \
        mend(copy); \
        other.table = copy; \
        answer = ask(&other); \
        if (vichrelka_refusal(answer) == 0) \
            memcpy(s->table, copy, TABLE); \
        return answer; \
    } \
    PLANT_STEPS(answer_mended)
#endif

/* The same for a call that changes no table: PLANT is PLANT_FIND or PLANT_COUNT. */
#define PLANT_ASKED_MENDED(mend, PLANT) \
    static uint64_t answer_mended(struct step *s) \
    { \
        static uint8_t copy[TABLE]; \
        struct step other = *s; \
        uint64_t answer = ask(s); \
        if (vichrelka_refusal(answer) != NOT_SOUND || s->table_len != TABLE) \
            return answer; \
        memcpy(copy, s->table, TABLE); \
        mend(copy); \
        other.table = copy; \
        return ask(&other); \
    } \
    PLANT(answer_mended)

/* The same, where `mend` is called with each slot that is used. */
#define PLANT_MENDED_SLOTS(mend) \
    static void mend_slots(uint8_t *table) \
    { \
        uint8_t *slot; \
        for (slot = table; slot < table + TABLE; slot += SLOT) \
            if (slot[0] != 0) \
                mend(slot); \
    } \
    PLANT_MENDED(mend_slots)

/* A sound table */

static inline size_t used(const uint8_t *table)
{
    size_t count = 0;
    while (count < NAMES && table[count * SLOT] != 0)
        count++;
    return count;
}

static inline uint8_t lowered(uint8_t c)
{
    return c >= 'A' && c <= 'Z' ? (uint8_t)(c + 32) : c;
}

static inline int has_upper(const uint8_t *name, size_t len)
{
    size_t i;
    for (i = 0; i < len; i++)
        if (lowered(name[i]) != name[i])
            return 1;
    return 0;
}

/* The slot of the step's name; NULL if there is none, or the table has another length. */
static inline uint8_t *find(const struct step *s)
{
    uint8_t *slot;
    size_t i;
    for (slot = s->table; s->table_len == TABLE && slot < s->table + TABLE && slot[0] != 0; slot += SLOT) {
        for (i = 0; i < s->name_len && slot[0] == s->name_len && slot[NAME_AT + i] == lowered(s->name[i]); i++)
            ;
        if (i > 0 && i == s->name_len)
            return slot;
    }
    return NULL;
}

/* Takes a slot out; later ones move up. */
static inline void take_out(uint8_t *table, uint8_t *slot)
{
    memmove(slot, slot + SLOT, (size_t)(table + TABLE - slot) - SLOT);
    memset(table + TABLE - SLOT, 0, SLOT);
}

/* The fields of an address, by the family */

static inline uint8_t flag_of(uint32_t family)
{
    return family == 4 ? HAS_A : HAS_AAAA;
}

static inline uint8_t *address_in(uint8_t *slot, uint32_t family)
{
    return slot + (family == 4 ? A_AT : AAAA_AT);
}

static inline size_t size_of(uint32_t family)
{
    return family == 4 ? 4 : 16;
}

static inline void delete_address(uint8_t *slot, uint32_t family)
{
    memset(address_in(slot, family), 0, size_of(family));
    slot[FLAGS_AT] &= (uint8_t)~flag_of(family);
}

/* Whether a remove that is accepted takes the name of this slot with its last address, or leaves it (document 02, K1); it is asked before the call. */

static inline int takes_name(const struct step *s, const uint8_t *slot)
{
    return ask_only(s) == 0 && (slot[FLAGS_AT] & (HAS_A | HAS_AAAA)) == flag_of(s->family);
}

static inline int leaves_name(const struct step *s, const uint8_t *slot)
{
    return ask_only(s) == 0 && !takes_name(s, slot);
}

static inline int is_dhcid(const uint8_t *dhcid, size_t len)
{
    return len == DHCID && dhcid[0] == 0 && dhcid[1] <= 2 && dhcid[2] == 1;
}

#endif
