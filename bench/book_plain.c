/* The book of names in ordinary C: the blocks as a struct, the C library's memcmp, memcpy and memmove. A book is gone through once, with the number of the
   block that last said it for each name that stands; once there are more names than a table has room for, the book is searched backwards instead. */
#include "sha256_plain.h"
#include "table_plain.h"

#include <string.h>

enum { CHECK_LEN = 32, CHECKED_LEN = VICHRELKA_BLOCK_LEN - CHECK_LEN, GONE = 0, STANDS = 1 };

/* bytes alone, as a slot */
struct block {
    uint8_t number[4], kind;
    struct slot slot;
    uint8_t unused[CHECKED_LEN - 5 - VICHRELKA_SLOT_LEN], check[CHECK_LEN];
};
_Static_assert(sizeof(struct block) == VICHRELKA_BLOCK_LEN, "a block is as the header says");

/* Blocks */

static uint32_t number_of(const struct block *b) { return (uint32_t)b->number[0] << 24 | b->number[1] << 16 | b->number[2] << 8 | b->number[3]; }

static void seal(struct block *b, uint32_t number)
{
    for (int i = 0; i < 4; i++)
        b->number[i] = (uint8_t)(number >> (24 - 8 * i));
    sha256_plain((const uint8_t *)b, CHECKED_LEN, b->check);
}

static bool check_right(const struct block *b)
{
    uint8_t check[CHECK_LEN];
    sha256_plain((const uint8_t *)b, CHECKED_LEN, check);
    return memcmp(check, b->check, sizeof check) == 0;
}

/* of the place `at` in the book, whatever is before it */
static bool block_sound(const struct block *b, size_t at)
{
    static const uint8_t NOTHING[sizeof b->unused];
    return number_of(b) == at && b->kind == (b->slot.flags != 0 ? STANDS : GONE) && fields_sound(&b->slot) &&
           memcmp(b->unused, NOTHING, sizeof NOTHING) == 0;
}

static bool same_name(const struct block *a, const struct block *b)
{
    return a->slot.len == b->slot.len && memcmp(a->slot.name, b->slot.name, b->slot.len) == 0;
}

/* Books */

/* What stands behind the blocks so far: in order, the blocks that last said the names. Once a name was too many, only that is known. */
struct standing {
    bool too_many;
    int count;
    uint32_t blocks[VICHRELKA_TABLE_NAMES];
};

/* The index of the block's name, or the number of names if it is not there */
static int find(const struct standing *s, const struct block *book, const struct block *b)
{
    int i = 0;
    while (i < s->count && !same_name(&book[s->blocks[i]], b))
        i++;
    return i;
}

/* Does the name of the block at this place stand before it? */
static bool stood(const struct block *book, size_t at)
{
    for (size_t i = at; i-- > 0;)
        if (same_name(&book[i], &book[at]))
            return book[i].kind == STANDS;
    return false;
}

/* Takes the block at this place; the refusal if it is bad, or 0 */
static uint64_t take(struct standing *s, const struct block *book, size_t at)
{
    const struct block *b = &book[at];
    if (!check_right(b))
        return refuse(VICHRELKA_REFUSED_WRONG_CHECK);
    if (!block_sound(b, at))
        return refuse(VICHRELKA_REFUSED_WRONG_FIELD);
    if (s->too_many)
        return b->kind == STANDS || stood(book, at) ? 0 : refuse(VICHRELKA_REFUSED_WRONG_FIELD);
    int i = find(s, book, b);
    if (b->kind == GONE) {
        if (i == s->count)
            return refuse(VICHRELKA_REFUSED_WRONG_FIELD);
        s->count--;
        memmove(&s->blocks[i], &s->blocks[i + 1], (size_t)(s->count - i) * sizeof s->blocks[0]);
    } else if (i == VICHRELKA_TABLE_NAMES) {
        s->too_many = true;
    } else {
        s->blocks[i] = (uint32_t)at;
        s->count += i == s->count;
    }
    return 0;
}

/* What the whole book leaves; its refusal, but for a short output, or 0 */
static uint64_t book_fault(struct standing *s, const uint8_t *book, size_t book_len)
{
    s->too_many = false;
    s->count = 0;
    if (book_len % VICHRELKA_BLOCK_LEN != 0)
        return refuse(VICHRELKA_REFUSED_BLOCK_LENGTH);
    for (size_t at = 0; at < book_len / VICHRELKA_BLOCK_LEN; at++) {
        uint64_t fault = take(s, (const struct block *)book, at);
        if (fault != 0)
            return fault;
    }
    return s->too_many ? refuse(VICHRELKA_REFUSED_TABLE_NOT_SOUND) : 0;
}

/* Calls */

uint64_t book_block_plain(const uint8_t *table, size_t table_len, const uint8_t *name, size_t name_len, uint32_t number, uint8_t *out, size_t out_len)
{
    struct block *b = (struct block *)out;
    uint64_t found = table_find_plain(table, table_len, name, name_len);
    uint32_t fault = vichrelka_refusal(found);
    if (fault != 0 && fault != VICHRELKA_REFUSED_NAME_NOT_HELD)
        return found;
    if (out_len < sizeof *b)
        return refuse(VICHRELKA_REFUSED_OUTPUT_SHORT);

    memset(b, 0, sizeof *b);
    if (fault == 0) {
        b->kind = STANDS;
        b->slot = ((const struct slot *)table)[vichrelka_value(found)];
    } else {
        b->slot.len = (uint8_t)name_len;
        /* a label's length is never a letter's code */
        for (size_t i = 0; i < name_len; i++)
            b->slot.name[i] = name[i] >= 'A' && name[i] <= 'Z' ? name[i] + ('a' - 'A') : name[i];
    }
    seal(b, number);
    return accepted(sizeof *b);
}

uint64_t book_replay_plain(uint8_t *table, size_t table_len, const uint8_t *book, size_t book_len)
{
    struct slot *slots = (struct slot *)table;
    struct standing s;
    uint64_t fault = book_fault(&s, book, book_len);
    if (fault != 0)
        return fault;
    if (table_len < VICHRELKA_TABLE_LEN)
        return refuse(VICHRELKA_REFUSED_OUTPUT_SHORT);
    for (int i = 0; i < s.count; i++)
        slots[i] = ((const struct block *)book)[s.blocks[i]].slot;
    memset(slots + s.count, 0, (size_t)(VICHRELKA_TABLE_NAMES - s.count) * sizeof *slots);
    return 0;
}

uint64_t book_tidy_plain(const uint8_t *book, size_t book_len, uint8_t *out, size_t out_len)
{
    struct block *blocks = (struct block *)out;
    struct standing s;
    uint64_t fault = book_fault(&s, book, book_len);
    if (fault != 0)
        return fault;
    size_t len = (size_t)s.count * sizeof *blocks;
    if (out_len < len)
        return refuse(VICHRELKA_REFUSED_OUTPUT_SHORT);
    for (int i = 0; i < s.count; i++) {
        blocks[i] = ((const struct block *)book)[s.blocks[i]];
        seal(&blocks[i], (uint32_t)i);
    }
    return accepted((uint32_t)len);
}

uint64_t book_sound_plain(const uint8_t *book, size_t book_len)
{
    struct standing s = {.too_many = false};
    size_t at = 0;
    while (at < book_len / VICHRELKA_BLOCK_LEN && take(&s, (const struct block *)book, at) == 0 && !s.too_many)
        at++;
    return accepted(at > UINT32_MAX ? UINT32_MAX : (uint32_t)at);
}
