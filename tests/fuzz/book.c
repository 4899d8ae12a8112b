/* An input is a program on a book, which has no bytes at first: steps that append blocks with the right number and check, or bytes as they are, change
   bytes or ask a call, each with its arguments behind it. */
#include <string.h>

#include "../../bench/sha256_plain.h"
#include "fuzz.h"

enum step { STAND, GO, COME_MANY, GO_MANY, CHANGE, CUT, BYTES, REPLAY_STEP, TIDY_STEP, SOUND_STEP, BLOCK_STEP, STEPS };
/* a table that is longer than it should be has to have room, and so has an out */
enum { MOST_CALLS = 8, MOST_BLOCKS = 240, MOST_AREA = VICHRELKA_TABLE_LEN + 64, MOST_OUT = VICHRELKA_TIDIED_LIMIT + 64 };
enum { KIND_AT = 4, SLOT_AT = 5, CHECK_AT = VICHRELKA_BLOCK_LEN - 32 };

static uint8_t book[MOST_BLOCKS * VICHRELKA_BLOCK_LEN], table[MOST_AREA], plain_table[MOST_AREA], plain_out[MOST_OUT];
static size_t book_len;
static struct room book_room, table_room, name_room, out_room;

/* what is in an area before a call writes there */
static const uint8_t *other_bytes(void)
{
    static uint8_t bytes[MOST_OUT];
    if (bytes[0] == 0)
        memset(bytes, 0xa5, sizeof bytes);
    return bytes;
}

/* Blocks */

static void append(uint8_t kind, const struct slot *s)
{
    size_t number = book_len / VICHRELKA_BLOCK_LEN;
    uint8_t *b = book + book_len;
    if (sizeof book - book_len < VICHRELKA_BLOCK_LEN)
        return;
    memset(b, 0, VICHRELKA_BLOCK_LEN);
    b[3] = (uint8_t)number;
    b[KIND_AT] = kind;
    memcpy(b + SLOT_AT, s, sizeof *s);
    sha256_plain(b, CHECK_AT, b + CHECK_AT);
    book_len += VICHRELKA_BLOCK_LEN;
}

static void append_gone(const struct slot *named)
{
    struct slot s = {.len = named->len};
    memcpy(s.name, named->name, named->len);
    append(0, &s);
}

/* As many names as there are numbers, from the first on */
static void append_many(enum step step, uint8_t first, uint8_t names)
{
    for (size_t i = first % NUMBERED; i < NUMBERED && names > 0; i++, names--) {
        struct slot s = numbered_slot(i);
        if (step == COME_MANY)
            append(1, &s);
        else
            append_gone(&s);
    }
}

/* A byte of a block, with the check that is then right or the one before */
static void change(size_t block, size_t at, uint8_t byte, uint8_t choice)
{
    if (book_len < VICHRELKA_BLOCK_LEN)
        return;
    uint8_t *b = book + block % (book_len / VICHRELKA_BLOCK_LEN) * VICHRELKA_BLOCK_LEN;
    b[at % VICHRELKA_BLOCK_LEN] = choice & 2 ? b[at % VICHRELKA_BLOCK_LEN] ^ byte : byte;
    if (choice & 1)
        sha256_plain(b, CHECK_AT, b + CHECK_AT);
}

/* Calls */

static const uint8_t *lend_book(enum way way)
{
    return lend_or_null(&book_room, way, &(struct bytes){book, book_len, 0});
}

static void call_replay(size_t table_len)
{
    memcpy(plain_table, other_bytes(), table_len);
    uint64_t plain = book_replay_plain(plain_table, table_len, book, book_len);
    count(REPLAY, plain);
    for (enum way way = ENDS; way <= (table_len == 0 || book_len == 0 ? NULLS : STARTS); way++) {
        uint8_t *t = lend_or_null(&table_room, way, &(struct bytes){other_bytes(), table_len, 0});
        uint64_t answer = vichrelka_book_replay(t, table_len, lend_book(way), book_len);
        agree("replay", answer, plain, same(t, plain_table, table_len), is_as_lent(&table_room, table_len) && is_as_lent(&book_room, 0));
    }
}

/* Into an out that is long enough; with choice 1 it is so many bytes less than just so */
static void call_tidy(uint8_t choice, uint8_t less)
{
    uint64_t plain = book_tidy_plain(book, book_len, plain_out, sizeof plain_out);
    size_t need = vichrelka_value(plain), out_len = choice & 1 ? (need > less ? need - less : 0) : sizeof plain_out;
    memcpy(plain_out, other_bytes(), sizeof plain_out);
    plain = book_tidy_plain(book, book_len, plain_out, out_len);
    count(TIDY, plain);
    for (enum way way = ENDS; way <= (out_len == 0 || book_len == 0 ? NULLS : STARTS); way++) {
        uint8_t *o = lend_or_null(&out_room, way, &(struct bytes){other_bytes(), out_len, 0});
        uint64_t answer = vichrelka_book_tidy(lend_book(way), book_len, o, out_len);
        agree("tidy", answer, plain, same(o, plain_out, out_len), is_as_lent(&out_room, out_len) && is_as_lent(&book_room, 0));
    }
}

static void call_sound(void)
{
    uint64_t plain = book_sound_plain(book, book_len);
    count(SOUND, plain);
    for (enum way way = ENDS; way <= (book_len == 0 ? NULLS : STARTS); way++) {
        uint64_t answer = vichrelka_book_sound(lend_book(way), book_len);
        agree("sound", answer, plain, 1, is_as_lent(&book_room, 0));
    }
}

/* Of the table that the sound blocks give, with a byte changed or not */
static void call_block(struct input *in)
{
    uint8_t choice = take(in), name_bytes[NAME_LIMIT + 1];
    size_t sound_len = (size_t)vichrelka_value(book_sound_plain(book, book_len)) * VICHRELKA_BLOCK_LEN, table_len = VICHRELKA_TABLE_LEN,
           out_len = VICHRELKA_BLOCK_LEN;
    memset(table, 0, sizeof table);
    if (book_replay_plain(table, VICHRELKA_TABLE_LEN, book, sound_len) != 0)
        fail("the sound blocks are not replayed");
    struct bytes name = take_name(in, table, name_bytes);
    uint32_t number = (uint32_t)take_two(in) << 16;
    number |= take_two(in);
    if (choice & 1) {
        size_t at = take_two(in) % VICHRELKA_TABLE_LEN;
        table[at] = take(in);
    }
    if (choice & 2)
        table_len = take_two(in) % (MOST_AREA + 1);
    if (choice & 4)
        out_len = take_two(in) % 1024;

    memcpy(plain_out, other_bytes(), out_len);
    uint64_t plain = book_block_plain(table, table_len, name.first, name.len, number, plain_out, out_len);
    count(BLOCK, plain);
    for (enum way way = ENDS; way <= (table_len == 0 || name.len == 0 || out_len == 0 ? NULLS : STARTS); way++) {
        const uint8_t *t = lend_or_null(&table_room, way, &(struct bytes){table, table_len, 0});
        const uint8_t *n = lend_or_null(&name_room, way, &name);
        uint8_t *o = lend_or_null(&out_room, way, &(struct bytes){other_bytes(), out_len, 0});
        uint64_t answer = vichrelka_book_block(t, table_len, n, name.len, number, o, out_len);
        agree("block", answer, plain, same(o, plain_out, out_len),
              is_as_lent(&table_room, 0) && is_as_lent(&name_room, 0) && is_as_lent(&out_room, out_len));
    }
}

static void make_step(struct input *in, enum step step)
{
    struct slot s = {.len = 0};
    uint8_t first, second, choice;
    size_t at;
    switch (step) {
    case STAND:
        take_slot(in, &s);
        append(1, &s);
        break;
    case GO:
        s.len = (uint8_t)small_name(take(in), s.name);
        append_gone(&s);
        break;
    case COME_MANY:
    case GO_MANY:
        first = take(in);
        append_many(step, first, take(in));
        break;
    case CHANGE:
        choice = take(in);
        first = take(in);
        at = take_two(in);
        change(first, at, take(in), choice);
        break;
    case CUT:
        book_len -= take_two(in) % (book_len + 1);
        break;
    case BYTES: {
        struct bytes more = take_slice(in, VICHRELKA_BLOCK_LEN);
        if (more.len <= sizeof book - book_len) {
            memcpy(book + book_len, more.first, more.len);
            book_len += more.len;
        }
        break;
    }
    case REPLAY_STEP:
        call_replay(take(in) & 1 ? take_two(in) % (MOST_AREA + 1) : VICHRELKA_TABLE_LEN);
        break;
    case TIDY_STEP:
        choice = take(in);
        second = take(in);
        call_tidy(choice, second);
        break;
    case SOUND_STEP:
        call_sound();
        break;
    default:
        call_block(in);
    }
}

void try_book(const uint8_t *input, size_t len)
{
    struct input in = {input, input + len};
    int calls = 0;
    book_len = 0;
    while (in.at < in.end && calls < MOST_CALLS) {
        enum step step = take(&in) % STEPS;
        calls += step >= REPLAY_STEP;
        make_step(&in, step);
    }
}
