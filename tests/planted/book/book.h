/*
 * What the shims of the calls on books of names share; the slots of a table and the numbers of its refusals are those of planted/table/table.h.
 *
 * Most shims of replay are made by PLANT_BLOCKS, which asks the library with each block mended, or by PLANT_WALK, which goes through the book by
 * itself and says how a block is judged, what it does to the names, or which refusal comes first. `faithful` is made so too, and differs in nothing.
 * A file of replay is also one of tidy or of sound where another includes it behind tidy.h or sound.h.
 */
#ifndef BOOK_H
#define BOOK_H

#include "../../../bench/sha256_plain.h"
#include "../table/table.h"

#define right_block __real_vichrelka_book_block
#define right_replay __real_vichrelka_book_replay
#define right_tidy __real_vichrelka_book_tidy
#define right_sound __real_vichrelka_book_sound
#define planted_block __wrap_vichrelka_book_block
#define planted_replay __wrap_vichrelka_book_replay
#define planted_tidy __wrap_vichrelka_book_tidy
#define planted_sound __wrap_vichrelka_book_sound

/* The parameters of the calls, and what is handed on of them */
#define BLOCKING const uint8_t *table, size_t table_len, const uint8_t *name, size_t name_len, uint32_t number, uint8_t *out, size_t out_len
#define REPLAYING uint8_t *area, size_t area_len, const uint8_t *book, size_t book_len
#define TIDYING const uint8_t *book, size_t book_len, uint8_t *out, size_t out_len
#define SOUNDING const uint8_t *book, size_t book_len
#define GIVEN_BLOCKING table, table_len, name, name_len, number, out, out_len
#define GIVEN_REPLAYING area, area_len, book, book_len
#define GIVEN_TIDYING book, book_len, out, out_len
#define GIVEN_SOUNDING book, book_len

uint64_t right_block(BLOCKING);
uint64_t planted_block(BLOCKING);
uint64_t right_replay(REPLAYING);
uint64_t planted_replay(REPLAYING);
uint64_t right_tidy(TIDYING);
uint64_t planted_tidy(TIDYING);
uint64_t right_sound(SOUNDING);
uint64_t planted_sound(SOUNDING);

enum { BLOCK = 512, CHECKED = 480, KIND_AT = 4, SLOT_AT = 5, BEHIND_SLOT = SLOT_AT + SLOT, TIDIED = NAMES * BLOCK };

/* A book that is longer is the library's. */
enum { MOST_BLOCKS = 512, MOST = MOST_BLOCKS * BLOCK };

/* Document 02's numbers, K5, in their order; NOT_SOUND of table.h comes before the last. */
enum { BLOCK_LENGTH = 44, WRONG_CHECK = 42, WRONG_FIELD = 43, OUTPUT_SHORT = 13 };

/* Blocks */

static inline uint32_t number_of(const uint8_t *block)
{
    return (uint32_t)block[0] << 24 | (uint32_t)block[1] << 16 | (uint32_t)block[2] << 8 | block[3];
}

static inline void set_number(uint8_t *block, uint32_t number)
{
    block[0] = (uint8_t)(number >> 24);
    block[1] = (uint8_t)(number >> 16);
    block[2] = (uint8_t)(number >> 8);
    block[3] = (uint8_t)number;
}

static inline void seal(uint8_t *block)
{
    sha256_plain(block, CHECKED, block + CHECKED);
}

/* Whether the check is right in its bytes from the first of these on, up to the other */
static inline int is_sealed_in(const uint8_t *block, size_t first, size_t end)
{
    uint8_t check[BLOCK - CHECKED];
    sha256_plain(block, CHECKED, check);
    return memcmp(check + first, block + CHECKED + first, end - first) == 0;
}

static inline int is_sealed(const uint8_t *block)
{
    return is_sealed_in(block, 0, BLOCK - CHECKED);
}

static inline int is_zero(const uint8_t *bytes, size_t len)
{
    size_t i;
    for (i = 0; i < len; i++)
        if (bytes[i] != 0)
            return 0;
    return 1;
}

/* Whether this is a proper name in lower case; none is longer than 255 bytes. */
static inline int is_stored_name(const uint8_t *name, size_t len)
{
    size_t at, label = 0, labels = 0;
    for (at = 0; at < len; at++) {
        if (label > 0) {
            if (!is_label_byte(name[at]) || lowered(name[at]) != name[at])
                return 0;
            label--;
        } else if (name[at] == 0) {
            return at + 1 == len && labels > 0;
        } else {
            if (name[at] > 63)
                return 0;
            label = name[at];
            labels++;
        }
    }
    return 0;
}

static inline int is_right_name(const uint8_t *slot)
{
    return is_stored_name(slot + NAME_AT, slot[0]) && is_zero(slot + NAME_AT + slot[0], 255 - slot[0]);
}

/* Whether flags and fields belong together; of a name that stands there is one at least, of one that is gone none. */
static inline int are_right_fields(const uint8_t *slot, int stands)
{
    uint8_t flags = slot[FLAGS_AT];
    return flags <= 7 && (flags != 0) == stands && (flags & HAS_A || is_zero(slot + A_AT, 4)) && (flags & HAS_AAAA || is_zero(slot + AAAA_AT, 16))
        && (flags & HAS_DHCID ? is_dhcid(slot + DHCID_AT, DHCID) : is_zero(slot + DHCID_AT, DHCID));
}

/* Whether a block with this number is right but for its check, and for the names that stand */
static inline int are_right_bytes(const uint8_t *block, uint32_t number)
{
    const uint8_t *slot = block + SLOT_AT;
    return number_of(block) == number && block[KIND_AT] <= 1 && is_right_name(slot) && are_right_fields(slot, block[KIND_AT] == 1)
        && is_zero(block + BEHIND_SLOT, CHECKED - BEHIND_SLOT);
}

static inline uint32_t judge(const uint8_t *block, uint32_t number)
{
    return !is_sealed(block) ? WRONG_CHECK : !are_right_bytes(block, number) ? WRONG_FIELD : 0;
}

/* A book is gone through */

struct walk {
    const uint8_t *book;
    size_t book_len;
    uint8_t slots[MOST_BLOCKS][SLOT]; /* the names that stand, in order */
    size_t count;
    size_t most; /* names, after any block */
    size_t right; /* blocks, from the first on */
    size_t fitting; /* of these, before there are more than 64 names */
    uint32_t fault; /* of the block behind the right ones */
};

static struct walk walk;

/* A block's fault by itself; what it does to the names, with its fault there; which refusal is given, 0 for none */
typedef uint32_t judge_fn(const uint8_t *block, uint32_t number);
typedef uint32_t step_fn(const uint8_t *slot, int stands);
typedef uint32_t verdict_fn(int is_short);

static inline int is_same_name(const uint8_t *slot, const uint8_t *other)
{
    return memcmp(slot, other, FLAGS_AT) == 0;
}

/* The place of a slot's name; `count` if it does not stand */
static inline size_t place_of(const uint8_t *slot)
{
    size_t at = 0;
    while (at < walk.count && !is_same_name(walk.slots[at], slot))
        at++;
    return at;
}

static inline void drop(size_t at)
{
    memmove(walk.slots[at], walk.slots[at + 1], (walk.count - at - 1) * SLOT);
    walk.count--;
}

static inline void put(size_t at, const uint8_t *slot)
{
    memmove(walk.slots[at + 1], walk.slots[at], (walk.count - at) * SLOT);
    memcpy(walk.slots[at], slot, SLOT);
    walk.count++;
}

static inline uint32_t step(const uint8_t *slot, int stands)
{
    size_t at = place_of(slot);
    if (!stands && at == walk.count)
        return WRONG_FIELD;
    if (!stands)
        drop(at);
    else if (at == walk.count)
        put(at, slot);
    else
        memcpy(walk.slots[at], slot, SLOT);
    return 0;
}

static inline void go_through(const uint8_t *book, size_t book_len, judge_fn *judge_one, step_fn *take_one)
{
    const uint8_t *block;
    walk.book = book;
    walk.book_len = book_len;
    walk.count = walk.most = walk.right = walk.fitting = 0;
    walk.fault = 0;
    for (; walk.right < book_len / BLOCK; walk.right++) {
        block = book + walk.right * BLOCK;
        walk.fault = judge_one(block, (uint32_t)walk.right);
        if (walk.fault == 0)
            walk.fault = take_one(block + SLOT_AT, block[KIND_AT] == 1);
        if (walk.fault != 0)
            return;
        walk.most = walk.count > walk.most ? walk.count : walk.most;
        walk.fitting += walk.most <= NAMES;
    }
}

static inline uint32_t verdict(int is_short)
{
    return walk.book_len % BLOCK != 0 ? BLOCK_LENGTH : walk.fault != 0 ? walk.fault : walk.most > NAMES ? NOT_SOUND : is_short ? OUTPUT_SHORT : 0;
}

/* What was gone through, as each call gives it */

static inline void put_table(uint8_t *area)
{
    memset(area, 0, TABLE);
    memcpy(area, walk.slots, (walk.count < NAMES ? walk.count : NAMES) * SLOT);
}

static inline uint64_t replay_walked(uint8_t *area, size_t area_len, verdict_fn *refused_by)
{
    uint32_t number = refused_by(area_len < TABLE);
    if (number != 0)
        return refused(number, 0);
    put_table(area);
    return accepted(0);
}

static inline void put_block(uint8_t *out, uint32_t number, uint8_t kind, const uint8_t *slot)
{
    memset(out, 0, BLOCK);
    set_number(out, number);
    out[KIND_AT] = kind;
    memcpy(out + SLOT_AT, slot, SLOT);
    seal(out);
}

static inline uint64_t tidy_walked(uint8_t *out, size_t out_len, verdict_fn *refused_by)
{
    size_t at;
    uint32_t number = refused_by(out_len < walk.count * BLOCK);
    if (number != 0)
        return refused(number, 0);
    for (at = 0; at < walk.count; at++)
        put_block(out + at * BLOCK, (uint32_t)at, 1, walk.slots[at]);
    return accepted((uint32_t)(walk.count * BLOCK));
}

#define WALK_REPLAY(judge_one, take_one, refused_by) \
    uint64_t planted_replay(REPLAYING) \
    { \
        if (book_len > MOST) \
            return right_replay(GIVEN_REPLAYING); \
        go_through(book, book_len, judge_one, take_one); \
        return replay_walked(area, area_len, refused_by); \
    }

#define WALK_TIDY(judge_one, take_one, refused_by) \
    uint64_t planted_tidy(TIDYING) \
    { \
        if (book_len > MOST) \
            return right_tidy(GIVEN_TIDYING); \
        go_through(book, book_len, judge_one, take_one); \
        return tidy_walked(out, out_len, refused_by); \
    }

#define WALK_SOUND(judge_one, take_one, refused_by) \
    uint64_t planted_sound(SOUNDING) \
    { \
        if (book_len > MOST) \
            return right_sound(GIVEN_SOUNDING); \
        go_through(book, book_len, judge_one, take_one); \
        return accepted((uint32_t)walk.fitting); \
    }

/* Another book in place of the one that is lent: `change` gives it, of so many bytes. */
#define CHANGE_REPLAY(change) \
    uint64_t planted_replay(REPLAYING) \
    { \
        book = change(book, &book_len); \
        return right_replay(GIVEN_REPLAYING); \
    }

#define CHANGE_TIDY(change) \
    uint64_t planted_tidy(TIDYING) \
    { \
        book = change(book, &book_len); \
        return right_tidy(GIVEN_TIDYING); \
    }

#define CHANGE_SOUND(change) \
    uint64_t planted_sound(SOUNDING) \
    { \
        book = change(book, &book_len); \
        return right_sound(GIVEN_SOUNDING); \
    }

/* Another answer, of the library's `answer` */
#define ANSWER_REPLAY(changed) \
    uint64_t planted_replay(REPLAYING) \
    { \
        uint64_t answer = right_replay(GIVEN_REPLAYING); \
        return changed; \
    }

#define ANSWER_TIDY(changed) \
    uint64_t planted_tidy(TIDYING) \
    { \
        uint64_t answer = right_tidy(GIVEN_TIDYING); \
        return changed; \
    }

#define ANSWER_SOUND(changed) \
    uint64_t planted_sound(SOUNDING) \
    { \
        uint64_t answer = right_sound(GIVEN_SOUNDING); \
        return changed; \
    }

/* Of replay, unless tidy.h or sound.h come before */
#ifndef PLANT_WALK
#define PLANT_WALK WALK_REPLAY
#define PLANT_BOOK CHANGE_REPLAY
#define PLANT_ANSWER ANSWER_REPLAY
#endif

/* The book with each whole block as `mend` leaves it, which gets its place too. A check that was right is made right again. */
#define PLANT_BLOCKS(mend) \
    static const uint8_t *mended(const uint8_t *book, size_t *book_len) \
    { \
        static uint8_t copy[MOST]; \
        size_t at; \
        if (*book_len > MOST || *book_len < BLOCK) \
            return book; \
        memcpy(copy, book, *book_len); \
        for (at = 0; at < *book_len / BLOCK; at++) { \
            mend(copy + at * BLOCK, (uint32_t)at); \
            if (memcmp(copy + at * BLOCK, book + at * BLOCK, CHECKED) != 0 && is_sealed(book + at * BLOCK)) \
                seal(copy + at * BLOCK); \
        } \
        return copy; \
    } \
    PLANT_BOOK(mended)

/* The block call */

/* The block that the library writes, after this was done to it; `block` is its bytes, which are not yet those of out. */
#define PLANT_BLOCK(change) \
    uint64_t planted_block(BLOCKING) \
    { \
        uint8_t block[BLOCK]; \
        uint64_t answer = right_block(table, table_len, name, name_len, number, block, out_len < BLOCK ? 0 : BLOCK); \
        if (vichrelka_refusal(answer) == 0) { \
            change; \
            memcpy(out, block, BLOCK); \
        } \
        return answer; \
    }

/* The same, and its check is made anew. */
#define PLANT_SEALED_BLOCK(change) PLANT_BLOCK(change; seal(block))

/* What the library would refuse with room enough, 0 for nothing */
static inline uint32_t block_refusal(const uint8_t *table, size_t table_len, const uint8_t *name, size_t name_len)
{
    uint8_t block[BLOCK];
    return vichrelka_refusal(right_block(table, table_len, name, name_len, 0, block, BLOCK));
}

#endif
