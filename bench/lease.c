/* The time of a lease, of its end and of a PTR name, beside the same calls in plain C, in one run; and of a lease and its end beside an add and a remove
 * alone, which know no reverse side: see bench/lease.sh.
 *
 * A case is a list of calls that leaves both sides as they were, so that it can be timed over and over; every answer is checked. */
#include <stdbool.h>
#include <stdio.h>
#include <string.h>

#include "measure.h"
#include "names.h"
#include "table_plain.h"
#include "vichrelka.h"

/* how many calls a round has at least: on sides of one name, on full ones */
enum { ROUNDS = 40, CALLS_ONE = 256, CALLS_FULL = 32, PASSES_PTR = 16 };
/* a case that has taken so many seconds has no further round, but some it has in any case */
enum { ROUNDS_LEAST = 3, SECONDS = 5 };
enum { NAMES = VICHRELKA_TABLE_NAMES, ADDRESSES = VICHRELKA_REVERSE_NAMES, ADDRESS_LIMIT = 16 };

struct address {
    uint32_t family;
    size_t len;
    uint8_t bytes[ADDRESS_LIMIT];
};

struct lease {
    struct name name;
    struct address address;
    uint8_t dhcid[VICHRELKA_DHCID_LEN];
};

struct sides {
    uint8_t table[VICHRELKA_TABLE_LEN], reverse[VICHRELKA_REVERSE_LEN];
};

struct step {
    enum { LEASE, END } call;
    const struct lease *lease;
    uint64_t want;
};

/* `sides` is what the list begins with and leaves, `units` how many times it does what the case's line gives the time of, `calls` how many calls a round
   has at least; `alone` says whether an add or a remove alone has the same answers */
struct list {
    const char *kind, *what;
    const struct sides *sides;
    bool alone;
    int len, units, calls;
    struct step steps[2 * ADDRESSES];
};

/* Contestants */

static uint64_t add_alone(uint8_t *table, size_t table_len, uint8_t *reverse, size_t reverse_len, const uint8_t *name, size_t name_len,
                          const uint8_t *dhcid, size_t dhcid_len, uint32_t family, const uint8_t *address, size_t address_len, uint32_t policy)
{
    (void)reverse, (void)reverse_len;
    return vichrelka_table_add(table, table_len, name, name_len, dhcid, dhcid_len, family, address, address_len, policy);
}

static uint64_t remove_alone(uint8_t *table, size_t table_len, uint8_t *reverse, size_t reverse_len, const uint8_t *name, size_t name_len,
                             const uint8_t *dhcid, size_t dhcid_len, uint32_t family, const uint8_t *address, size_t address_len)
{
    (void)reverse, (void)reverse_len;
    return vichrelka_table_remove(table, table_len, name, name_len, dhcid, dhcid_len, family, address, address_len);
}

static const struct contestant {
    const char *name;
    uint64_t (*lease)(uint8_t *, size_t, uint8_t *, size_t, const uint8_t *, size_t, const uint8_t *, size_t, uint32_t, const uint8_t *, size_t, uint32_t);
    uint64_t (*end)(uint8_t *, size_t, uint8_t *, size_t, const uint8_t *, size_t, const uint8_t *, size_t, uint32_t, const uint8_t *, size_t);
} contestants[] = {
    {"vichrelka", vichrelka_lease, vichrelka_lease_end},
    {"plain C", lease_plain, lease_end_plain},
    {"add, remove alone", add_alone, remove_alone},
};
enum { VICHRELKA, PLAIN, ALONE, CONTESTANTS };

/* each has its own */
static struct sides sides[CONTESTANTS];

static int contestants_of(const struct list *l)
{
    return l->alone ? CONTESTANTS : ALONE;
}

/* by the contestant of this number */
static uint64_t call(int number, const struct step *s)
{
    const struct contestant *c = &contestants[number];
    uint8_t *table = sides[number].table, *reverse = sides[number].reverse;
    const struct lease *l = s->lease;
    const struct address *a = &l->address;
    if (s->call == LEASE)
        return c->lease(table, VICHRELKA_TABLE_LEN, reverse, VICHRELKA_REVERSE_LEN, l->name.bytes, l->name.len, l->dhcid, sizeof l->dhcid, a->family,
                        a->bytes, a->len, VICHRELKA_FIRST_WINS);
    return c->end(table, VICHRELKA_TABLE_LEN, reverse, VICHRELKA_REVERSE_LEN, l->name.bytes, l->name.len, l->dhcid, sizeof l->dhcid, a->family, a->bytes,
                  a->len);
}

/* Kinds */

/* `both`: each name has an A and an AAAA. `moved`: each has an AAAA, and is still behind the one that it had before; those come first. A full reverse side
   has 128 addresses either way. */
static struct kind {
    const char *what, *what_moved;
    text_fn *write;
    int count;
    struct lease leases[ADDRESSES], moved_leases[ADDRESSES], stranger;
    struct sides both, moved;
    int cases;
    struct list lists[8];
} kinds[] = {
    {.what = "one name, 2 addresses", .what_moved = "one name, 2 AAAA", .write = ordinary, .count = 1},
    {.what = "128 addresses, ordinary", .what_moved = "128 AAAA, ordinary", .write = ordinary, .count = NAMES},
    {.what = "128 addresses, 255 bytes", .what_moved = "128 AAAA, 255 bytes", .write = long_different, .count = NAMES},
    {.what = "128 addresses, 255 bytes, worst", .what_moved = "128 AAAA, 255 bytes, worst", .write = long_alike, .count = NAMES},
};
enum { KINDS = sizeof kinds / sizeof kinds[0] };

/* one of a network: they differ in the last byte */
static struct address address_of(uint32_t family, int number)
{
    struct address a = {.family = family, .len = family == VICHRELKA_IPV6 ? 16 : 4};
    memcpy(a.bytes, family == VICHRELKA_IPV6 ? "\x20\x01\x0d\xb8\0\0\0\0\0\0\0\0\0\0\0" : "\xc0\x00\x02", a.len);
    a.bytes[a.len - 1] = (uint8_t)(number + 1);
    return a;
}

static struct lease lease_of(text_fn *write, int i, struct address address)
{
    struct lease l = {.name = name_of(write, i), .address = address, .dhcid = {0, 1, 1}};
    for (int k = 3; k < VICHRELKA_DHCID_LEN; k++)
        l.dhcid[k] = (uint8_t)(i * 37 + k * 101 + 1);
    return l;
}

/* Cases */

static void append(struct list *l, int call, const struct lease *lease, uint64_t want)
{
    l->steps[l->len++] = (struct step){.call = call, .lease = lease, .want = want};
}

static struct list *new_case(struct kind *k, const char *what, const struct sides *begin, int units)
{
    struct list *l = &k->lists[k->cases++];
    *l = (struct list){.kind = begin == &k->both ? k->what : k->what_moved, .what = what, .sides = begin, .alone = true, .units = units};
    l->calls = k->count == 1 ? CALLS_ONE : CALLS_FULL;
    return l;
}

/* Ended and leased again: the last lease, behind which nothing moves up; and each from this one on, which is the first of them in its turn. After all of
   them the order is as before. The new lease answers 1 if the name has stayed. */
static void make_out_and_in(struct kind *k, const struct sides *begin, const struct lease *leases, int from, const char *what, const char *what_first,
                            uint64_t want)
{
    int count = 2 * k->count;
    struct list *l = new_case(k, what, begin, 1);
    append(l, END, &leases[count - 1], accepted(0));
    append(l, LEASE, &leases[count - 1], want);
    if (k->count == 1)
        return;
    l = new_case(k, what_first, begin, count - from);
    for (int i = from; i < count; i++) {
        append(l, END, &leases[i], accepted(0));
        append(l, LEASE, &leases[i], want);
    }
}

static void make_cases(struct kind *k)
{
    struct list *l = new_case(k, "lease, same client", &k->both, 1);
    append(l, LEASE, &k->leases[2 * k->count - 1], accepted(1));
    make_out_and_in(k, &k->both, k->leases, 0, "end and lease, the pair", "the same of the first address", accepted(1));
    if (2 * k->count == ADDRESSES) {
        l = new_case(k, "lease, refused (46)", &k->both, 1);
        append(l, LEASE, &k->stranger, refuse(VICHRELKA_REFUSED_REVERSE_FULL));
        l->alone = false;
    }
    l = new_case(k, "lease, same client", &k->moved, 1);
    append(l, LEASE, &k->moved_leases[2 * k->count - 1], accepted(1));
    make_out_and_in(k, &k->moved, k->moved_leases, k->count, "end of a name, and lease", "the same of the first name", accepted(0));
}

/* Answers and sides */

static void stop_at(const struct list *l, int i, const char *who, const char *what)
{
    char where[128];
    snprintf(where, sizeof where, "%s, %s, call %d: %s", l->kind, l->what, i + 1, who);
    stop(where, what);
}

static void call_right(const struct list *l, int i, int c)
{
    if (call(c, &l->steps[i]) != l->steps[i].want)
        stop_at(l, i, contestants[c].name, "another answer than is due");
}

static void set_sides(const struct sides *begin)
{
    for (int c = 0; c < CONTESTANTS; c++)
        sides[c] = *begin;
}

/* All go through the list, and after each call have the answer that is due and the same table; the first two the same reverse side. */
static void compare(const struct list *l)
{
    set_sides(l->sides);
    for (int i = 0; i < l->len; i++) {
        for (int c = 0; c < contestants_of(l); c++) {
            call_right(l, i, c);
            if (memcmp(sides[VICHRELKA].table, sides[c].table, VICHRELKA_TABLE_LEN) != 0)
                stop_at(l, i, contestants[c].name, "another table than the library leaves");
        }
        if (memcmp(sides[VICHRELKA].reverse, sides[PLAIN].reverse, VICHRELKA_REVERSE_LEN) != 0)
            stop_at(l, i, "the reverse side", "vichrelka and plain C leave different bytes");
    }
}

static void as_before(const struct list *l)
{
    for (int c = 0; c < contestants_of(l); c++)
        if (memcmp(&sides[c], l->sides, sizeof sides[c]) != 0)
            stop_at(l, l->len - 1, contestants[c].name, "the sides are not as before");
}

/* The sides of a kind come of leases, which are compared as well. */
static void fill(struct kind *k)
{
    static const struct sides EMPTY;
    struct list both = {.kind = k->what, .what = "fill", .sides = &EMPTY}, moved = {.kind = k->what_moved, .what = "fill", .sides = &EMPTY};
    for (int i = 0; i < 2 * k->count; i++) {
        k->leases[i] = lease_of(k->write, i / 2, address_of(i % 2 ? VICHRELKA_IPV6 : VICHRELKA_IPV4, i));
        k->moved_leases[i] = lease_of(k->write, i % k->count, address_of(VICHRELKA_IPV6, i));
        append(&both, LEASE, &k->leases[i], accepted((uint32_t)(i % 2)));
        append(&moved, LEASE, &k->moved_leases[i], accepted(i < k->count ? 0 : 1));
    }
    k->stranger = lease_of(k->write, k->count - 1, address_of(VICHRELKA_IPV6, ADDRESSES));
    compare(&both);
    k->both = sides[PLAIN];
    compare(&moved);
    k->moved = sides[PLAIN];
}

/* Time */

/* what one pass is given */
struct turn {
    const struct list *list;
    int contestant;
};

static void pass(const void *given)
{
    const struct turn *t = given;
    for (int i = 0; i < t->list->len; i++)
        call_right(t->list, i, t->contestant);
}

static void measure(const struct list *l)
{
    double best[CONTESTANTS] = {1e9, 1e9, 1e9}, began = cpu_seconds();
    int passes = l->len < l->calls ? l->calls / l->len : 1;
    set_sides(l->sides);
    /* in turns, so that what else the machine does meets all of them */
    for (int round = 0; round < ROUNDS_LEAST || (round < ROUNDS && cpu_seconds() - began < SECONDS); round++) {
        for (int c = 0; c < contestants_of(l); c++)
            time_passes(pass, &(struct turn){l, c}, passes, &best[c]);
        as_before(l);
    }
    char what[128];
    snprintf(what, sizeof what, "%s: %s", l->kind, l->what);
    for (int c = PLAIN; c < contestants_of(l); c++)
        row(what, MICROSECONDS, 0, best[VICHRELKA] / l->units, contestants[c].name, best[c] / l->units);
}

/* PTR names */

typedef uint64_t ptr_fn(uint32_t, const uint8_t *, size_t, uint8_t *, size_t);
static ptr_fn *const PTR_FNS[] = {vichrelka_ptr_name, ptr_name_plain};

/* so many addresses by chance, since the digits of one could be foreseen, and the lengths of their PTR names */
enum { PTR_ADDRESSES = 256 };
struct ptrs {
    struct address addresses[PTR_ADDRESSES];
    uint64_t wants[PTR_ADDRESSES];
    ptr_fn *call;
};

static void ptr_pass(const void *given)
{
    const struct ptrs *p = given;
    uint8_t out[VICHRELKA_PTR_LIMIT];
    for (int i = 0; i < PTR_ADDRESSES; i++)
        if (p->call(p->addresses[i].family, p->addresses[i].bytes, p->addresses[i].len, out, sizeof out) != p->wants[i])
            stop("a PTR name", "another answer than is due");
}

static void make_ptrs(struct ptrs *p, uint32_t family)
{
    uint32_t chance = 1;
    for (int i = 0; i < PTR_ADDRESSES; i++) {
        struct address *a = &p->addresses[i];
        uint8_t out[2][VICHRELKA_PTR_LIMIT] = {{0}};
        *a = address_of(family, 0);
        for (size_t k = 0; k < a->len; k++)
            a->bytes[k] = (uint8_t)((chance = chance * 1664525 + 1013904223) >> 24);
        for (int c = VICHRELKA; c <= PLAIN; c++)
            p->wants[i] = PTR_FNS[c](family, a->bytes, a->len, out[c], sizeof out[c]);
        if (vichrelka_refusal(p->wants[i]) != 0 || memcmp(out[VICHRELKA], out[PLAIN], sizeof out[PLAIN]) != 0)
            stop("a PTR name", "vichrelka and plain C write different bytes");
    }
}

static void measure_ptr(const char *what, uint32_t family)
{
    static struct ptrs ptrs;
    double best[] = {1e9, 1e9};
    make_ptrs(&ptrs, family);
    for (int round = 0; round < ROUNDS; round++)
        for (int c = VICHRELKA; c <= PLAIN; c++) {
            ptrs.call = PTR_FNS[c];
            time_passes(ptr_pass, &ptrs, PASSES_PTR, &best[c]);
        }
    row(what, MILLIONS_A_SECOND, 0, best[VICHRELKA] / PTR_ADDRESSES, "plain C", best[PLAIN] / PTR_ADDRESSES);
}

int main(void)
{
    /* every case is compared before any is timed */
    for (struct kind *k = kinds; k < kinds + KINDS; k++) {
        fill(k);
        make_cases(k);
        for (int i = 0; i < k->cases; i++) {
            compare(&k->lists[i]);
            as_before(&k->lists[i]);
        }
    }
    measure_ptr("PTR name of an IPv4 address", VICHRELKA_IPV4);
    measure_ptr("PTR name of an IPv6 address", VICHRELKA_IPV6);
    for (struct kind *k = kinds; k < kinds + KINDS; k++)
        for (int i = 0; i < k->cases; i++)
            measure(&k->lists[i]);
    return 0;
}
