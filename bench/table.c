/* The time of the calls on the table of names, beside the same calls in plain C, in one run: see bench/table.sh.
 *
 * A case is a list of calls that leaves its table as it was, so that it can be timed over and over; every answer is checked. What is loaded is the
 * table's own listing, or one that is refused. */
#include <stdbool.h>
#include <stdio.h>
#include <string.h>

#include "measure.h"
#include "names.h"
#include "table_plain.h"
#include "vichrelka.h"

/* how many calls a round has at least: on a table of one name, on a full one, with a listing, with one of very many names; each takes longer */
enum { ROUNDS = 40, CALLS_ONE = 1024, CALLS_FULL = 32, CALLS_LISTING = 8, CALLS_CROWD = 1 };
/* a case that has taken so many seconds has no further round, but some it has in any case */
enum { ROUNDS_LEAST = 3, SECONDS = 5 };
enum { NAMES = VICHRELKA_TABLE_NAMES, ADDRESS_LIMIT = 16 };

/* a name and who holds it */
struct entry {
    struct name name;
    size_t address_len;
    uint32_t family;
    uint8_t address[ADDRESS_LIMIT], dhcid[VICHRELKA_DHCID_LEN];
};

struct listing {
    size_t len;
    uint8_t text[VICHRELKA_LISTING_LIMIT];
};

struct step {
    enum { ADD, ADD_BY_ANOTHER, REMOVE, CLEAR, WRITE, LOAD } call;
    const struct entry *entry;
    const struct listing *listing;
    uint64_t want;
};

/* `table` is what the list begins with and leaves, `units` how many times it does what the case's line gives the time of, `calls` how many calls a round
   has at least */
struct list {
    const char *kind, *what;
    const uint8_t *table;
    int len, units, calls;
    struct step steps[2 * NAMES];
};

static struct kind {
    const char *what;
    text_fn *write;
    int count;
    bool three_records; /* both addresses; written and loaded */
    struct entry entries[NAMES], others[NAMES];
    uint8_t table[VICHRELKA_TABLE_LEN];
    uint8_t both[VICHRELKA_TABLE_LEN]; /* the same, but the last name has both addresses */
    struct listing listing;
    int cases;
    struct list lists[7];
} kinds[] = {
    /* a clear empties it, and the add after it meets an empty table */
    {.what = "one name", .write = ordinary, .count = 1},
    {.what = "64 names, ordinary", .write = ordinary, .count = NAMES},
    {.what = "64 names, 255 bytes", .write = long_different, .count = NAMES},
    {.what = "64 names, 255 bytes, worst", .write = long_alike, .count = NAMES},
    {.what = "60 names, 3 records", .write = ordinary, .count = 60, .three_records = true},
    {.what = "64 names, 3 records", .write = ordinary, .count = NAMES, .three_records = true},
    {.what = "64 names, 255 bytes, 3 records", .write = long_different, .count = NAMES, .three_records = true},
};
enum { KINDS = sizeof kinds / sizeof kinds[0] };

static void make_entry(struct entry *e, text_fn *write, int i, uint32_t family)
{
    e->name = name_of(write, i);
    e->family = family;
    e->address_len = family == 6 ? 16 : 4;
    /* no A has a longer text: four numbers of three digits */
    memcpy(e->address, family == 6 ? "\x20\x01\x0d\xb8\0\0\0\0\0\0\0\0\0\0\0" : "\xff\xff\xff", e->address_len);
    e->address[e->address_len - 1] = (uint8_t)(i + 100);
    memcpy(e->dhcid, "\0\1\1", 3);
    for (int k = 3; k < VICHRELKA_DHCID_LEN; k++)
        e->dhcid[k] = (uint8_t)(i * 37 + k * 101 + 1);
}

/* Contestants */

static const struct contestant {
    const char *name;
    uint64_t (*add)(uint8_t *, size_t, const uint8_t *, size_t, const uint8_t *, size_t, uint32_t, const uint8_t *, size_t, uint32_t);
    uint64_t (*remove)(uint8_t *, size_t, const uint8_t *, size_t, const uint8_t *, size_t, uint32_t, const uint8_t *, size_t);
    uint64_t (*clear)(uint8_t *, size_t, const uint8_t *, size_t);
    uint64_t (*write)(const uint8_t *, size_t, uint8_t *, size_t);
    uint64_t (*load)(uint8_t *, size_t, const uint8_t *, size_t);
} contestants[] = {
    {"vichrelka", vichrelka_table_add, vichrelka_table_remove, vichrelka_table_clear, vichrelka_table_write, vichrelka_table_load},
    {"plain C", table_add_plain, table_remove_plain, table_clear_plain, table_write_plain, table_load_plain},
};
enum { VICHRELKA, PLAIN, CONTESTANTS };

/* each has its own table, and its own room for a listing */
static uint8_t tables[CONTESTANTS][VICHRELKA_TABLE_LEN], outs[CONTESTANTS][VICHRELKA_WRITTEN_LIMIT];

/* Cases */

/* by the contestant of this number */
static uint64_t call(int number, const struct step *s)
{
    static const uint8_t ANOTHER[VICHRELKA_DHCID_LEN] = {0, 2, 1};
    const struct contestant *c = &contestants[number];
    uint8_t *table = tables[number];
    const struct entry *e = s->entry;
    switch (s->call) {
    case WRITE:
        return c->write(table, VICHRELKA_TABLE_LEN, outs[number], sizeof outs[number]);
    case LOAD:
        return c->load(table, VICHRELKA_TABLE_LEN, s->listing->text, s->listing->len);
    case REMOVE:
        return c->remove(table, VICHRELKA_TABLE_LEN, e->name.bytes, e->name.len, e->dhcid, sizeof e->dhcid, e->family, e->address, e->address_len);
    case CLEAR:
        return c->clear(table, VICHRELKA_TABLE_LEN, e->name.bytes, e->name.len);
    default:
        return c->add(table, VICHRELKA_TABLE_LEN, e->name.bytes, e->name.len, s->call == ADD ? e->dhcid : ANOTHER, sizeof e->dhcid, e->family, e->address,
                      e->address_len, VICHRELKA_FIRST_WINS);
    }
}

static void append(struct list *l, int call, const struct entry *e, uint64_t want)
{
    l->steps[l->len++] = (struct step){.call = call, .entry = e, .want = want};
}

static struct list *new_case(struct kind *k, const char *what, int units)
{
    struct list *l = &k->lists[k->cases++];
    l->kind = k->what;
    l->what = what;
    l->table = k->table;
    l->units = units;
    l->calls = k->count == 1 ? CALLS_ONE : CALLS_FULL;
    return l;
}

/* A case of one call with a listing */
static struct list *new_listing_case(struct kind *k, const char *what, int calls, struct step step)
{
    struct list *l = new_case(k, what, 1);
    l->calls = calls;
    l->steps[l->len++] = step;
    return l;
}

/* As many names of one A as fit, the shortest first: none is there twice, which is seen only when all were compared. */
static const struct listing *crowd(void)
{
    static struct listing all;
    for (int i = 0;; i++) {
        char line[32], label[4];
        int at = 3, left = i;
        label[at] = 0;
        do
            label[--at] = IN_LABEL[left % LABEL_BYTES];
        while ((left = left / LABEL_BYTES - 1) >= 0);
        size_t len = (size_t)sprintf(line, "%s. A 1.2.3.4\n", label + at);
        if (len > sizeof all.text - all.len)
            return &all;
        memcpy(all.text + all.len, line, len);
        all.len += len;
    }
}

/* As many records as fit, 5,041: each name is there very often, which is seen at once, and still every entry has to be read. */
static const struct listing *repeats(void)
{
    static struct listing all;
    for (int i = 0; sizeof all.text - all.len >= 13; i++) {
        char line[16];
        memcpy(all.text + all.len, line, (size_t)sprintf(line, "%c. A 1.2.3.4\n", IN_LABEL[i % LABEL_BYTES]));
        all.len += 13;
    }
    return &all;
}

static void make_listing_cases(struct kind *k)
{
    new_listing_case(k, "write", CALLS_LISTING, (struct step){.call = WRITE, .want = accepted((uint32_t)k->listing.len)});
    new_listing_case(k, "load", CALLS_LISTING, (struct step){.call = LOAD, .listing = &k->listing});
    if (k == &kinds[KINDS - 1]) {
        static const char MOST[] = "65,536 bytes of listing";
        struct step full = {.call = LOAD, .listing = crowd(), .want = refuse(VICHRELKA_REFUSED_TABLE_FULL)};
        struct step repeated = {.call = LOAD, .listing = repeats(), .want = refuse(VICHRELKA_REFUSED_RECORD_REPEATED)};
        new_listing_case(k, "load 4,470 names, refused (32)", CALLS_CROWD, full)->kind = MOST;
        new_listing_case(k, "load 5,041 records, refused (35)", CALLS_CROWD, repeated)->kind = MOST;
    }
}

/* The last name is taken out, by a clear or with its only address, and put again. */
static void make_out_and_in(struct kind *k, int call, const char *what, const char *what_first)
{
    struct list *l = new_case(k, what, 1);
    append(l, call, &k->entries[k->count - 1], accepted(0));
    append(l, ADD, &k->entries[k->count - 1], accepted(0));

    if (k->count == 1)
        return;
    /* Behind the last name nothing moves up. Here each name is the first in its turn, and after all of them the order is as before. */
    l = new_case(k, what_first, k->count);
    for (int i = 0; i < k->count; i++) {
        append(l, call, &k->entries[i], accepted(0));
        append(l, ADD, &k->entries[i], accepted(0));
    }
}

/* The call's name is the last one, which a search comes to last. */
static void make_cases(struct kind *k)
{
    if (k->three_records) {
        make_listing_cases(k);
        return;
    }
    const struct entry *last = &k->entries[k->count - 1];
    struct list *l = new_case(k, "add, same client", 1);
    append(l, ADD, last, accepted(1));

    l = new_case(k, "add, refused (30)", 1);
    append(l, ADD_BY_ANOTHER, last, refuse(VICHRELKA_REFUSED_HELD_BY_ANOTHER));

    /* the other address is left, so that the name stays */
    l = new_case(k, "remove and add, the pair", 1);
    l->table = k->both;
    append(l, REMOVE, last, accepted(0));
    append(l, ADD, last, accepted(1));

    make_out_and_in(k, CLEAR, "clear and add, the pair", "the same of the first name");
    make_out_and_in(k, REMOVE, "remove of a name, and add", "remove of the first name, and add");
}

/* Answers and tables */

static void stop_at(const struct list *l, int i, const char *who, const char *what)
{
    char where[128];
    snprintf(where, sizeof where, "%s, %s, call %d: %s", l->kind, l->what, i + 1, who);
    stop(where, what);
}

static void call_right(const struct list *l, int i, int c)
{
    if (call(c, &l->steps[i]) != l->steps[i].want)
        stop_at(l, i, contestants[c].name, "another answer than is due");
}

static void set_tables(const uint8_t *table)
{
    for (int c = 0; c < CONTESTANTS; c++)
        memcpy(tables[c], table, sizeof tables[c]);
}

/* Both contestants go through the list, and after each call have the answer that is due, the same table and the same listing. */
static void compare(const struct list *l)
{
    set_tables(l->table);
    for (int i = 0; i < l->len; i++) {
        for (int c = 0; c < CONTESTANTS; c++)
            call_right(l, i, c);
        if (memcmp(tables[VICHRELKA], tables[PLAIN], sizeof tables[PLAIN]) != 0)
            stop_at(l, i, "the table", "vichrelka and plain C leave different bytes");
        if (memcmp(outs[VICHRELKA], outs[PLAIN], sizeof outs[PLAIN]) != 0)
            stop_at(l, i, "the listing", "vichrelka and plain C write different bytes");
    }
}

static void as_before(const struct list *l)
{
    for (int c = 0; c < CONTESTANTS; c++)
        if (memcmp(tables[c], l->table, sizeof tables[c]) != 0)
            stop_at(l, l->len - 1, contestants[c].name, "the table is not as before");
}

/* The tables of a kind come of adds, which are compared as well, and its listing from plain C. */
static void fill(struct kind *k)
{
    static const uint8_t EMPTY[VICHRELKA_TABLE_LEN];
    struct list l = {.kind = k->what, .what = "fill", .table = EMPTY}, second = {.kind = k->what, .what = "second address", .table = k->table};
    for (int i = 0; i < k->count; i++) {
        make_entry(&k->entries[i], k->write, i, i % 2 ? 6 : 4);
        make_entry(&k->others[i], k->write, i, i % 2 ? 4 : 6);
        append(&l, ADD, &k->entries[i], accepted(0));
        /* not for the other kinds: an add of a name that was taken out would not bring a second address back */
        if (k->three_records)
            append(&l, ADD, &k->others[i], accepted(1));
    }
    compare(&l);
    memcpy(k->table, tables[PLAIN], sizeof k->table);
    append(&second, ADD, &k->others[k->count - 1], accepted(1));
    compare(&second);
    memcpy(k->both, tables[PLAIN], sizeof k->both);
    k->listing.len = vichrelka_value(table_write_plain(k->table, sizeof k->table, k->listing.text, sizeof k->listing.text));
}

/* Time */

/* what one pass is given */
struct turn {
    const struct list *list;
    int contestant;
};

static void pass(const void *given)
{
    const struct turn *t = given;
    for (int i = 0; i < t->list->len; i++)
        call_right(t->list, i, t->contestant);
}

static void measure(const struct list *l)
{
    double best[CONTESTANTS] = {1e9, 1e9}, began = cpu_seconds();
    int passes = l->len < l->calls ? l->calls / l->len : 1;
    set_tables(l->table);
    /* in turns, so that what else the machine does meets both */
    for (int round = 0; round < ROUNDS_LEAST || (round < ROUNDS && cpu_seconds() - began < SECONDS); round++) {
        for (int c = 0; c < CONTESTANTS; c++)
            time_passes(pass, &(struct turn){l, c}, passes, &best[c]);
        as_before(l);
    }
    char what[128];
    snprintf(what, sizeof what, "%s: %s", l->kind, l->what);
    row(what, MICROSECONDS, 0, best[VICHRELKA] / l->units, "plain C", best[PLAIN] / l->units);
}

int main(void)
{
    /* every case is compared before any is timed */
    for (struct kind *k = kinds; k < kinds + KINDS; k++) {
        fill(k);
        make_cases(k);
        for (int i = 0; i < k->cases; i++) {
            compare(&k->lists[i]);
            as_before(&k->lists[i]);
        }
    }
    for (struct kind *k = kinds; k < kinds + KINDS; k++)
        for (int i = 0; i < k->cases; i++)
            measure(&k->lists[i]);
    return 0;
}
