/*
 * What the shims of leases and PTR names share; the slots of a table and the numbers of its refusals are those of planted/table/table.h.
 *
 * A shim of a lease or its end is a function of a call, which runs the library's with the call as it is or changed; PLANT_LEASE, PLANT_END or
 * PLANT_BOTH make the calls of it. Those that take a damaged reverse side for a sound one say only how it is mended. A shim of the PTR name is a
 * function of what is asked, and PLANT_PTR makes the call of it.
 */
#ifndef LEASE_H
#define LEASE_H

#include "../table/table.h"

#define right_lease __real_vichrelka_lease
#define right_end __real_vichrelka_lease_end
#define right_ptr __real_vichrelka_ptr_name
#define planted_lease __wrap_vichrelka_lease
#define planted_end __wrap_vichrelka_lease_end
#define planted_ptr __wrap_vichrelka_ptr_name

/* The parameters of the calls, and what is handed on of them */
#define SIDES uint8_t *table, size_t table_len, uint8_t *reverse, size_t reverse_len, const uint8_t *name, size_t name_len, const uint8_t *dhcid, \
    size_t dhcid_len, uint32_t family, const uint8_t *address, size_t address_len
#define POINTING uint32_t family, const uint8_t *address, size_t address_len, uint8_t *out, size_t out_len
#define GIVEN_POINTING family, address, address_len, out, out_len

uint64_t right_lease(SIDES, uint32_t policy);
uint64_t planted_lease(SIDES, uint32_t policy);
uint64_t right_end(SIDES);
uint64_t planted_end(SIDES);
uint64_t right_ptr(POINTING);
uint64_t planted_ptr(POINTING);

enum { ADDRESSES = 128, POINTER = 273, REVERSE = ADDRESSES * POINTER, PTR_MOST = 74 };

/* Where the fields of a pointer stand, a slot of the reverse side; the family comes first, and address and family are one behind the other. */
enum { ADDRESS_AT = 1, LENGTH_AT = 17, BEHIND_AT = 18 };

/* Document 02's number, K7, right after ADDRESS_LENGTH of table.h; and of the PTR name the last */
enum { REVERSE_FULL = 46, OUTPUT_SHORT = 13 };

/* PTR names */

struct pointing {
    uint32_t family;
    const uint8_t *address;
    size_t address_len;
    uint8_t *out;
    size_t out_len;
};

static inline uint64_t ask_ptr(const struct pointing *p)
{
    return right_ptr(p->family, p->address, p->address_len, p->out, p->out_len);
}

#define PLANT_PTR(answer) \
    uint64_t planted_ptr(POINTING) \
    { \
        struct pointing p = {GIVEN_POINTING}; \
        return answer(&p); \
    }

/* What the library answers if there is room enough, and writes into this; out stays as it is. */
static inline uint64_t ptr_with_room(const struct pointing *p, uint8_t *name)
{
    return right_ptr(p->family, p->address, p->address_len, name, PTR_MOST);
}

/* An accepted PTR name that is another one: it is written if there is room for it. */
static inline uint64_t other_name(const struct pointing *p, const uint8_t *name, size_t len)
{
    if (p->out_len < len)
        return refused(OUTPUT_SHORT, 0);
    memcpy(p->out, name, len);
    return accepted((uint32_t)len);
}

/* Leases */

struct call {
    uint64_t (*right)(const struct call *c); /* the library's call */
    struct step step; /* all but the reverse side */
    uint8_t *reverse;
    size_t reverse_len;
};

static inline uint64_t ask_lease(const struct call *c)
{
    const struct step *s = &c->step;
    return right_lease(s->table, s->table_len, c->reverse, c->reverse_len, s->name, s->name_len, s->dhcid, s->dhcid_len, s->family, s->address,
                       s->address_len, s->policy);
}

static inline uint64_t ask_end(const struct call *c)
{
    const struct step *s = &c->step;
    return right_end(s->table, s->table_len, c->reverse, c->reverse_len, s->name, s->name_len, s->dhcid, s->dhcid_len, s->family, s->address,
                     s->address_len);
}

#define PLANT_LEASE(answer) \
    uint64_t planted_lease(SIDES, uint32_t policy) \
    { \
        struct call c = {ask_lease, {NULL, GIVEN_CLIENT, policy}, reverse, reverse_len}; \
        return answer(&c); \
    }

#define PLANT_END(answer) \
    uint64_t planted_end(SIDES) \
    { \
        struct call c = {ask_end, {NULL, GIVEN_CLIENT, 0}, reverse, reverse_len}; \
        return answer(&c); \
    }

#define PLANT_BOTH(answer) PLANT_LEASE(answer) PLANT_END(answer)

static inline uint64_t run(const struct call *c)
{
    return c->right(c);
}

/* Copies of both sides; only sides of the right length are copied. */
struct sides {
    uint8_t table[TABLE], reverse[REVERSE];
};

static inline int has_sides(const struct call *c)
{
    return c->step.table_len == TABLE && c->reverse_len == REVERSE;
}

static inline void keep(struct sides *kept, const struct call *c)
{
    if (has_sides(c)) {
        memcpy(kept->table, c->step.table, TABLE);
        memcpy(kept->reverse, c->reverse, REVERSE);
    }
}

/* What the library would answer; both sides stay as they are. */
static inline uint64_t would(const struct call *c)
{
    static struct sides copy;
    struct call other = *c;
    if (!has_sides(c))
        return run(c);
    keep(&copy, c);
    other.step.table = copy.table;
    other.reverse = copy.reverse;
    return run(&other);
}

static inline int is_accepted(const struct call *c)
{
    return vichrelka_refusal(would(c)) == 0;
}

/* What the library would answer on empty sides: which refusal up to 16 the call has, whatever its sides are. */
static inline uint32_t fault_of_arguments(const struct call *c)
{
    static struct sides empty;
    struct call other = *c;
    uint32_t number;
    memset(&empty, 0, sizeof empty);
    other.step.table = empty.table;
    other.reverse = empty.reverse;
    other.step.table_len = TABLE;
    other.reverse_len = REVERSE;
    number = vichrelka_refusal(run(&other));
    return number == NAME_UNKNOWN ? 0 : number;
}

/* What the library would answer with this reverse side in place of the call's */
static inline uint64_t would_with(const struct call *c, const uint8_t *reverse)
{
    static uint8_t copy[REVERSE];
    struct call other = *c;
    memcpy(copy, reverse, REVERSE);
    other.reverse = copy;
    other.reverse_len = REVERSE;
    return would(&other);
}

static inline uint64_t would_with_none(const struct call *c)
{
    static const uint8_t none[REVERSE];
    return would_with(c, none);
}

/* The reverse side */

static inline size_t pointers(const uint8_t *reverse)
{
    size_t count = 0;
    while (count < ADDRESSES && reverse[count * POINTER] != 0)
        count++;
    return count;
}

static inline int is_full(const struct call *c)
{
    return c->reverse_len == REVERSE && pointers(c->reverse) == ADDRESSES;
}

/* The pointer of the call's address; NULL if there is none, or the arguments have a fault. */
static inline uint8_t *pointer_of(const struct call *c)
{
    uint8_t *pointer, key[LENGTH_AT] = {0};
    if (fault_of_arguments(c) != 0 || c->reverse_len != REVERSE)
        return NULL;
    key[0] = (uint8_t)c->step.family;
    memcpy(key + ADDRESS_AT, c->step.address, c->step.address_len);
    for (pointer = c->reverse; pointer < c->reverse + REVERSE && pointer[0] != 0; pointer += POINTER)
        if (memcmp(pointer, key, LENGTH_AT) == 0)
            return pointer;
    return NULL;
}

/* Whether the call's name, in lower case, is behind this pointer's address */
static inline int is_this_name(const struct call *c, const uint8_t *pointer)
{
    size_t i;
    for (i = 0; i < c->step.name_len && pointer[LENGTH_AT] == c->step.name_len && pointer[BEHIND_AT + i] == lowered(c->step.name[i]); i++)
        ;
    return i > 0 && i == c->step.name_len;
}

/* Puts the call's name behind a pointer's address, or the call's address and name into a pointer. */
static inline void put_name(const struct call *c, uint8_t *pointer)
{
    size_t i;
    memset(pointer + LENGTH_AT, 0, POINTER - LENGTH_AT);
    pointer[LENGTH_AT] = (uint8_t)c->step.name_len;
    for (i = 0; i < c->step.name_len; i++)
        pointer[BEHIND_AT + i] = lowered(c->step.name[i]);
}

static inline void put_pointer(const struct call *c, uint8_t *pointer)
{
    memset(pointer, 0, POINTER);
    pointer[0] = (uint8_t)c->step.family;
    memcpy(pointer + ADDRESS_AT, c->step.address, c->step.address_len);
    put_name(c, pointer);
}

/* Takes a pointer out; later ones move up. */
static inline void drop(uint8_t *reverse, uint8_t *pointer)
{
    memmove(pointer, pointer + POINTER, (size_t)(reverse + REVERSE - pointer) - POINTER);
    memset(reverse + REVERSE - POINTER, 0, POINTER);
}

/* Makes room for a pointer here; later ones move down, and the 128th is lost. */
static inline void make_room(uint8_t *reverse, uint8_t *pointer)
{
    memmove(pointer + POINTER, pointer, (size_t)(reverse + REVERSE - pointer) - POINTER);
}

/* Both calls, where the library takes the reverse side for not sound: with a copy as `mend` leaves it, which is what the side then holds. */
#define PLANT_MENDED_REVERSE(mend) \
    static uint64_t run_mended(struct call *c) \
    { \
        static uint8_t copy[REVERSE]; \
        struct call other = *c; \
        uint64_t answer = run(c); \
        if (vichrelka_refusal(answer) != NOT_SOUND || c->reverse_len != REVERSE) \
            return answer; \
        memcpy(copy, c->reverse, REVERSE); \
        mend(copy); \
        other.reverse = copy; \
        answer = run(&other); \
        if (vichrelka_refusal(answer) == 0) \
            memcpy(c->reverse, copy, REVERSE); \
        return answer; \
    } \
    PLANT_BOTH(run_mended)

/* The same, where `mend` is called with each pointer that is used. */
#define PLANT_MENDED_POINTERS(mend) \
    static void mend_pointers(uint8_t *reverse) \
    { \
        uint8_t *pointer; \
        for (pointer = reverse; pointer < reverse + REVERSE; pointer += POINTER) \
            if (pointer[0] != 0) \
                mend(pointer); \
    } \
    PLANT_MENDED_REVERSE(mend_pointers)

#endif
