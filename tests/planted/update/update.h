/*
 * What the shims of UPDATE messages share; the numbers of refusals up to 16 are those of planted/table/table.h.
 *
 * A shim of a writer is a function of a call, which runs the library's with the call as it is or changed; PLANT_ADD_FIRST, PLANT_ADD_SECOND,
 * PLANT_REMOVE_FIRST, PLANT_REMOVE_SECOND, or several of them, make the calls of it. Most say only how the message that is written is changed
 * (PLANT_CHANGED). A shim of the reader is a function of what is read, and PLANT_ANSWER makes the call of it.
 */
#ifndef UPDATE_H
#define UPDATE_H

#include "../table/table.h"

#define right_add_first __real_vichrelka_update_add_first
#define right_add_second __real_vichrelka_update_add_second
#define right_remove_first __real_vichrelka_update_remove_first
#define right_remove_second __real_vichrelka_update_remove_second
#define right_answer __real_vichrelka_update_answer
#define planted_add_first __wrap_vichrelka_update_add_first
#define planted_add_second __wrap_vichrelka_update_add_second
#define planted_remove_first __wrap_vichrelka_update_remove_first
#define planted_remove_second __wrap_vichrelka_update_remove_second
#define planted_answer __wrap_vichrelka_update_answer

/* The parameters of the calls, and what is handed on of them */
#define NAMED uint16_t id, const uint8_t *zone, size_t zone_len, const uint8_t *name, size_t name_len, const uint8_t *dhcid, size_t dhcid_len
#define ADDRESSED NAMED, uint32_t family, const uint8_t *address, size_t address_len
#define OUT uint8_t *out, size_t out_len
#define READ uint16_t id, const uint8_t *message, size_t message_len
#define GIVEN_NAMED id, {zone, zone_len}, {name, name_len}, {dhcid, dhcid_len}

uint64_t right_add_first(ADDRESSED, OUT);
uint64_t planted_add_first(ADDRESSED, OUT);
uint64_t right_add_second(ADDRESSED, OUT);
uint64_t planted_add_second(ADDRESSED, OUT);
uint64_t right_remove_first(ADDRESSED, OUT);
uint64_t planted_remove_first(ADDRESSED, OUT);
uint64_t right_remove_second(NAMED, OUT);
uint64_t planted_remove_second(NAMED, OUT);
uint64_t right_answer(READ);
uint64_t planted_answer(READ);

/* Where the parts of a message stand: the number comes first, then the flags, then the low bytes of four counts; the zone is right behind the header.
   And what is behind a record's owner */
enum { FLAGS = 2, ZOCOUNT = 5, PRCOUNT = 7, UPCOUNT = 9, ADCOUNT = 11, HEADER = 12 };
enum { TYPE = 1, CLASS = 3, LIFETIME = 4, LENGTH = 9, DATA = 10 };
enum { TYPE_A = 1, TYPE_AAAA = 28, ANY = 255, NONE = 254 };

/* Document 02's numbers, K8; 13 is the last of a writer */
enum { OUTPUT_SHORT = 13, NOT_THE_ANSWER = 47, ANOTHER_CODE = 48 };

/* Writers */

struct slice {
    const uint8_t *first;
    size_t len;
};

struct call {
    uint64_t (*right)(const struct call *c); /* the library's call */
    uint16_t id;
    struct slice zone, name, dhcid;
    uint32_t family;
    struct slice address;
    uint8_t *out;
    size_t out_len;
};

/* What is handed on of a call */
#define CALLED_NAMED(c) c->id, c->zone.first, c->zone.len, c->name.first, c->name.len, c->dhcid.first, c->dhcid.len
#define CALLED_ADDRESSED(c) CALLED_NAMED(c), c->family, c->address.first, c->address.len

static inline uint64_t ask_add_first(const struct call *c)
{
    return right_add_first(CALLED_ADDRESSED(c), c->out, c->out_len);
}

static inline uint64_t ask_add_second(const struct call *c)
{
    return right_add_second(CALLED_ADDRESSED(c), c->out, c->out_len);
}

static inline uint64_t ask_remove_first(const struct call *c)
{
    return right_remove_first(CALLED_ADDRESSED(c), c->out, c->out_len);
}

static inline uint64_t ask_remove_second(const struct call *c)
{
    return right_remove_second(CALLED_NAMED(c), c->out, c->out_len);
}

#define PLANT_ADDRESSED(planted, ask_right, answer) \
    uint64_t planted(ADDRESSED, OUT) \
    { \
        struct call c = {ask_right, GIVEN_NAMED, family, {address, address_len}, out, out_len}; \
        return answer(&c); \
    }

#define PLANT_ADD_FIRST(answer) PLANT_ADDRESSED(planted_add_first, ask_add_first, answer)
#define PLANT_ADD_SECOND(answer) PLANT_ADDRESSED(planted_add_second, ask_add_second, answer)
#define PLANT_REMOVE_FIRST(answer) PLANT_ADDRESSED(planted_remove_first, ask_remove_first, answer)
#define PLANT_REMOVE_SECOND(answer) \
    uint64_t planted_remove_second(NAMED, OUT) \
    { \
        struct call c = {ask_remove_second, GIVEN_NAMED, 0, {NULL, 0}, out, out_len}; \
        return answer(&c); \
    }

#define PLANT_WITH_ADDRESS(answer) PLANT_ADD_FIRST(answer) PLANT_ADD_SECOND(answer) PLANT_REMOVE_FIRST(answer)
#define PLANT_MESSAGES(answer) PLANT_WITH_ADDRESS(answer) PLANT_REMOVE_SECOND(answer)

static inline uint64_t run(const struct call *c)
{
    return c->right(c);
}

/* A message of its own memory, with room for one that is longer than the library's */
struct message {
    uint8_t bytes[2 * VICHRELKA_UPDATE_LIMIT];
    size_t len;
};

/* What the library answers if there is room enough: which refusal before 13 the call has; or 0 with the message. */
static inline uint32_t write_with_room(const struct call *c, struct message *m)
{
    struct call other = *c;
    uint64_t answer;
    other.out = m->bytes;
    other.out_len = VICHRELKA_UPDATE_LIMIT;
    answer = run(&other);
    m->len = vichrelka_value(answer);
    return vichrelka_refusal(answer);
}

static inline uint32_t fault_of(const struct call *c)
{
    struct message m;
    return write_with_room(c, &m);
}

/* This message in place of the library's: it is written if there is room for it. */
static inline uint64_t put(const struct call *c, const struct message *m)
{
    if (c->out_len < m->len)
        return refused(OUTPUT_SHORT, 0);
    memcpy(c->out, m->bytes, m->len);
    return accepted((uint32_t)m->len);
}

#define PLANT_CHANGED(change, PLANT) \
    static uint64_t run_changed(struct call *c) \
    { \
        struct message m; \
        uint32_t fault = write_with_room(c, &m); \
        if (fault != 0) \
            return refused(fault, 0); \
        change(c, &m); \
        return put(c, &m); \
    } \
    PLANT(run_changed)

/* Where the owner of a record begins, counted from 0 over both sections; and what is behind it */

static inline uint8_t *owner_of(const struct call *c, struct message *m, int record)
{
    uint8_t *at = m->bytes + HEADER + c->zone.len + 4;
    while (record-- > 0)
        at += c->name.len + DATA + at[c->name.len + LENGTH];
    return at;
}

static inline uint8_t *behind_owner(const struct call *c, struct message *m, int record)
{
    return owner_of(c, m, record) + c->name.len;
}

static inline int records(const struct message *m)
{
    return m->bytes[PRCOUNT] + m->bytes[UPCOUNT];
}

static inline void cut(struct message *m, uint8_t *at, size_t len)
{
    memmove(at, at + len, (size_t)(m->bytes + m->len - at) - len);
    m->len -= len;
}

static inline void insert(struct message *m, uint8_t *at, const uint8_t *bytes, size_t len)
{
    memmove(at + len, at, (size_t)(m->bytes + m->len - at));
    memcpy(at, bytes, len);
    m->len += len;
}

/* Takes a prerequisite out. */
static inline void drop(const struct call *c, struct message *m, int record)
{
    cut(m, owner_of(c, m, record), c->name.len + DATA + behind_owner(c, m, record)[LENGTH]);
    m->bytes[PRCOUNT]--;
}

/* Deletes a set, or all of a name, where a record by its data is deleted. */
static inline void delete_set(const struct call *c, struct message *m, int record, uint8_t type)
{
    uint8_t *at = behind_owner(c, m, record);
    cut(m, at + DATA, at[LENGTH]);
    at[TYPE] = type;
    at[CLASS] = ANY;
    at[LENGTH] = 0;
}

/* The two last records the other way round */
static inline void exchange_last(const struct call *c, struct message *m)
{
    struct message copy = *m;
    uint8_t *one = owner_of(c, m, records(m) - 2), *other = owner_of(c, m, records(m) - 1);
    size_t one_len = (size_t)(other - one), other_len = (size_t)(m->bytes + m->len - other);
    memcpy(one, copy.bytes + (other - m->bytes), other_len);
    memcpy(one + other_len, copy.bytes + (one - m->bytes), one_len);
}

static inline void put_lifetime(uint8_t *at, uint8_t high, uint8_t low)
{
    at[LIFETIME + 2] = high;
    at[LIFETIME + 3] = low;
}

/* Names */

static inline int is_same_label(const uint8_t *one, const uint8_t *other, size_t len)
{
    size_t i;
    for (i = 0; i < len && lowered(one[i]) == lowered(other[i]); i++)
        ;
    return i == len;
}

static inline int is_last_bytes(const struct call *c)
{
    return c->zone.len <= c->name.len && is_same_label(c->name.first + (c->name.len - c->zone.len), c->zone.first, c->zone.len);
}

/* The message of a call that the library refuses with 9 for its zone: of the name in its own zone, with the call's zone put in. If that has another
   fault, it is the answer. */
static inline uint64_t run_in_zone(const struct call *c)
{
    struct message m;
    struct call other = *c;
    size_t i;
    uint32_t fault;
    other.zone = c->name;
    fault = write_with_room(&other, &m);
    if (fault != 0)
        return refused(fault, 0);
    cut(&m, m.bytes + HEADER, c->name.len);
    insert(&m, m.bytes + HEADER, c->zone.first, c->zone.len);
    for (i = HEADER; i < HEADER + c->zone.len; i++)
        m.bytes[i] = lowered(m.bytes[i]);
    return put(c, &m);
}

/* Whether this is a proper name, as the library takes it: one that is in its own zone */
static inline int is_proper(const struct call *c, struct slice name)
{
    struct call other = *c;
    other.zone = other.name = name;
    return fault_of(&other) != NO_PROPER_NAME;
}

/* Whether the zone is refused for no other reason than that it is not the name's last labels */
static inline int is_outside(const struct call *c)
{
    return fault_of(c) == NO_PROPER_NAME && is_proper(c, c->zone) && is_proper(c, c->name);
}

/* A writer that takes a proper zone which is not the name's last labels, if `takes` does */
#define PLANT_ZONE(takes) \
    static uint64_t run_zone(struct call *c) \
    { \
        return is_outside(c) && takes(c) ? run_in_zone(c) : run(c); \
    } \
    PLANT_MESSAGES(run_zone)

/* The length of the message, if the call has no fault but room */
static inline size_t needed(const struct call *c)
{
    struct message m;
    return write_with_room(c, &m) == 0 ? m.len : 0;
}

/* The reader */

struct reading {
    uint16_t id;
    const uint8_t *message;
    size_t len;
};

static inline uint64_t ask_answer(const struct reading *r)
{
    return right_answer(r->id, r->message, r->len);
}

#define PLANT_ANSWER(answer) \
    uint64_t planted_answer(READ) \
    { \
        struct reading r = {id, message, message_len}; \
        return answer(&r); \
    }

static inline int is_another_code(uint8_t code)
{
    return code != 0 && code != 6 && code != 7 && code != 8;
}

/* The reader of a header with something changed in it; fewer bytes are read as they are. */
#define PLANT_HEADER(change) \
    static uint64_t read_changed(struct reading *r) \
    { \
        uint8_t header[HEADER]; \
        struct reading other = {r->id, header, HEADER}; \
        if (r->len < HEADER) \
            return ask_answer(r); \
        memcpy(header, r->message, HEADER); \
        change(r, header); \
        return ask_answer(&other); \
    } \
    PLANT_ANSWER(read_changed)

#endif
