/* The time of the calls on the book of names, beside the same calls in plain C, in one run: see bench/book.sh.
 *
 * A case is one call, made over and over; every answer is checked, and after every round what it wrote. The books are those of a gateway: each block is
 * that of a name behind a step, as plain C writes it. The last ones have more names than any table, and are refused. */
#include <stdio.h>
#include <string.h>

#include "measure.h"
#include "names.h"
#include "table_plain.h"
#include "vichrelka.h"

/* how many calls a round has: of a block, with a short book, with a long one; each takes longer */
enum { ROUNDS = 40, CALLS_BLOCK = 32, CALLS_SHORT = 8, CALLS_LONG = 1 };
/* a case that has taken so many seconds has no further round, but some it has in any case */
enum { ROUNDS_LEAST = 3, SECONDS = 5 };
enum { NAMES = VICHRELKA_TABLE_NAMES, LONG = 10000, CROWD = LONG / 2, BLOCK = VICHRELKA_BLOCK_LEN };

/* the table is what its blocks leave, if there is one */
struct book {
    size_t len;
    uint8_t bytes[LONG * BLOCK], table[VICHRELKA_TABLE_LEN];
};

/* Books */

static void append(struct book *b, const struct name *n)
{
    uint64_t answer = book_block_plain(b->table, sizeof b->table, n->bytes, n->len, (uint32_t)(b->len / BLOCK), b->bytes + b->len, sizeof b->bytes - b->len);
    if (answer != accepted(BLOCK))
        stop("a block", "plain C does not write it");
    b->len += BLOCK;
}

/* An add of the name of this number, which another `turn` gives another address, and its block */
static void put(struct book *b, text_fn *write, int i, int turn)
{
    const struct name n = name_of(write, i);
    uint8_t address[16] = {0x20, 0x01, 0x0d, 0xb8, [14] = (uint8_t)(turn >> 8), [15] = (uint8_t)turn}, dhcid[VICHRELKA_DHCID_LEN] = {0, 1, 1};
    uint32_t family = i % 2 ? 6 : 4;
    for (int k = 3; k < VICHRELKA_DHCID_LEN; k++)
        dhcid[k] = (uint8_t)(i * 37 + k * 101 + 1);
    uint64_t answer = table_add_plain(b->table, sizeof b->table, n.bytes, n.len, dhcid, sizeof dhcid, family, address + (family == 4 ? 12 : 0),
                                      family == 4 ? 4 : 16, VICHRELKA_FIRST_WINS);
    if (vichrelka_refusal(answer) != 0)
        stop("an add", "plain C refuses it");
    append(b, &n);
}

static void take_out(struct book *b, text_fn *write, int i)
{
    const struct name n = name_of(write, i);
    if (table_clear_plain(b->table, sizeof b->table, n.bytes, n.len) != 0)
        stop("a clear", "plain C refuses it");
    append(b, &n);
}

/* 64 names come; then of eight blocks six are of a name that stands, one of a name that goes and one of the same, which returns as the last. All 64 stand
   at the end. */
static const struct book *make_book(text_fn *write, int blocks)
{
    struct book *b = calloc(1, sizeof *b);
    uint32_t chance = 1;
    if (!b)
        stop("a book", "no memory");
    for (int i = 0; i < NAMES; i++)
        put(b, write, i, 0);
    for (int at = NAMES; at < blocks; at++) {
        if (at % 8 != 7)
            chance = chance * 1664525 + 1013904223;
        int i = (int)(chance >> 26);
        if (at % 8 == 6)
            take_out(b, write, i);
        else
            put(b, write, i, at);
    }
    return b;
}

/* 5,000 names come, and go in the same order: from each block that says so to the one before it of that name it is 5,000 blocks, and no order of as many
   blocks has more in all. */
static const struct book *make_crowd(text_fn *write)
{
    struct book *b = calloc(1, sizeof *b);
    if (!b)
        stop("a book", "no memory");
    for (int i = 0; i < CROWD; i++) {
        memset(b->table, 0, sizeof b->table);
        put(b, write, i, 0);
    }
    memset(b->table, 0, sizeof b->table);
    for (int i = 0; i < LONG - CROWD; i++) {
        const struct name n = name_of(write, i);
        append(b, &n);
    }
    return b;
}

/* Contestants */

static const struct contestant {
    const char *name;
    uint64_t (*block)(const uint8_t *, size_t, const uint8_t *, size_t, uint32_t, uint8_t *, size_t);
    uint64_t (*replay)(uint8_t *, size_t, const uint8_t *, size_t);
    uint64_t (*tidy)(const uint8_t *, size_t, uint8_t *, size_t);
    uint64_t (*sound)(const uint8_t *, size_t);
} contestants[] = {
    {"vichrelka", vichrelka_book_block, vichrelka_book_replay, vichrelka_book_tidy, vichrelka_book_sound},
    {"plain C", book_block_plain, book_replay_plain, book_tidy_plain, book_sound_plain},
};
enum { VICHRELKA, PLAIN, CONTESTANTS };

/* each has its own room, for a table, a block or a tidied book */
static uint8_t outs[CONTESTANTS][VICHRELKA_TIDIED_LIMIT];

/* Cases */

struct test {
    const char *kind, *what;
    enum { BLOCK_OF, REPLAY, TIDY, SOUND } call;
    int calls;
    const struct book *book; /* of BLOCK_OF its table */
    struct name name;
    uint64_t want;
};

enum { MOST_TESTS = 32 };
static struct test tests[MOST_TESTS];
static int test_count;

static struct test *new_test(const char *kind, const char *what, int call, int calls, const struct book *book, uint64_t want)
{
    if (test_count == MOST_TESTS)
        stop(what, "no room for the case");
    struct test *t = &tests[test_count++];
    *t = (struct test){.kind = kind, .what = what, .call = call, .calls = calls, .book = book, .want = want};
    return t;
}

static void make_blocks(const char *kind, text_fn *write)
{
    const struct book *book = make_book(write, NAMES);
    new_test(kind, "block of the last name", BLOCK_OF, CALLS_BLOCK, book, accepted(BLOCK))->name = name_of(write, NAMES - 1);
    new_test(kind, "block of a name not there", BLOCK_OF, CALLS_BLOCK, book, accepted(BLOCK))->name = name_of(write, NAMES);
}

static void make_replays(const char *kind, text_fn *write, int blocks, int calls)
{
    const struct book *book = make_book(write, blocks);
    new_test(kind, "replay", REPLAY, calls, book, 0);
    new_test(kind, "tidy", TIDY, calls, book, accepted(VICHRELKA_TIDIED_LIMIT));
    new_test(kind, "sound", SOUND, calls, book, accepted((uint32_t)blocks));
}

static void make_refused(const char *kind, text_fn *write)
{
    const struct book *book = make_crowd(write);
    new_test(kind, "replay, refused (40)", REPLAY, CALLS_LONG, book, refuse(VICHRELKA_REFUSED_TABLE_NOT_SOUND));
}

static void make_tests(void)
{
    make_blocks("64 names, ordinary", ordinary);
    make_blocks("64 names, 255 bytes, worst", long_alike);
    make_replays("book, 64 blocks", ordinary, NAMES, CALLS_SHORT);
    make_replays("book, 10,000 blocks", ordinary, LONG, CALLS_LONG);
    make_replays("book, 10,000 blocks, 255 bytes, worst", long_alike, LONG, CALLS_LONG);
    make_refused("book, 10,000 blocks, 5,000 names", ordinary);
    make_refused("book, the same, 255 bytes, worst", long_alike);
}

/* Answers and bytes */

/* by the contestant of this number */
static uint64_t call(int number, const struct test *t)
{
    enum { NUMBER = 7 };
    const struct contestant *c = &contestants[number];
    uint8_t *out = outs[number];
    switch (t->call) {
    case BLOCK_OF:
        return c->block(t->book->table, sizeof t->book->table, t->name.bytes, t->name.len, NUMBER, out, BLOCK);
    case REPLAY:
        return c->replay(out, VICHRELKA_TABLE_LEN, t->book->bytes, t->book->len);
    case TIDY:
        return c->tidy(t->book->bytes, t->book->len, out, sizeof outs[number]);
    default:
        return c->sound(t->book->bytes, t->book->len);
    }
}

static void stop_at(const struct test *t, const char *who, const char *what)
{
    char where[128];
    snprintf(where, sizeof where, "%s, %s: %s", t->kind, t->what, who);
    stop(where, what);
}

static void call_right(const struct test *t, int c)
{
    if (call(c, t) != t->want)
        stop_at(t, contestants[c].name, "another answer than is due");
}

/* so that a byte that is not written differs */
static void clear_outs(void)
{
    memset(outs, 0xa5, sizeof outs);
}

static void same_outs(const struct test *t)
{
    if (memcmp(outs[VICHRELKA], outs[PLAIN], sizeof outs[PLAIN]) != 0)
        stop_at(t, "what is written", "vichrelka and plain C leave different bytes");
}

/* Both give the answer that is due and leave the same bytes; a replay, also of what was tidied, gives the table that the book was made with. */
static void compare(const struct test *t)
{
    static uint8_t table[VICHRELKA_TABLE_LEN];
    clear_outs();
    for (int c = 0; c < CONTESTANTS; c++)
        call_right(t, c);
    same_outs(t);
    if (vichrelka_refusal(t->want) != 0)
        return;
    if (t->call == REPLAY)
        memcpy(table, outs[PLAIN], sizeof table);
    if (t->call == TIDY && book_replay_plain(table, sizeof table, outs[PLAIN], vichrelka_value(t->want)) != 0)
        stop_at(t, "what is written", "it cannot be replayed");
    if ((t->call == REPLAY || t->call == TIDY) && memcmp(table, t->book->table, sizeof table) != 0)
        stop_at(t, "what is written", "not the table that the book was made with");
}

/* Time */

/* what one pass is given */
struct turn {
    const struct test *test;
    int contestant;
};

static void pass(const void *given)
{
    const struct turn *t = given;
    call_right(t->test, t->contestant);
}

static void measure(const struct test *t)
{
    double best[CONTESTANTS] = {1e9, 1e9}, began = cpu_seconds();
    /* in turns, so that what else the machine does meets both */
    for (int round = 0; round < ROUNDS_LEAST || (round < ROUNDS && cpu_seconds() - began < SECONDS); round++) {
        clear_outs();
        for (int c = 0; c < CONTESTANTS; c++)
            time_passes(pass, &(struct turn){t, c}, t->calls, &best[c]);
        same_outs(t);
    }
    char what[128];
    snprintf(what, sizeof what, "%s: %s", t->kind, t->what);
    row(what, MICROSECONDS, 0, best[VICHRELKA], "plain C", best[PLAIN]);
}

int main(void)
{
    /* every case is compared before any is timed */
    make_tests();
    for (int i = 0; i < test_count; i++)
        compare(&tests[i]);
    for (int i = 0; i < test_count; i++)
        measure(&tests[i]);
    return 0;
}
