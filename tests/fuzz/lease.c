/* An input is a program on a table and a reverse side, which are all zeros at first: steps that put bytes there or ask a call, each with its arguments
   behind it. After each call both sides of the second implementation are the sides. */
#include <string.h>

#include "fuzz.h"

/* the first four are table.c's */
enum step { PUT, SLOT, FILL, LENGTH, PUT_REVERSE, POINTER, FILL_REVERSE, LENGTH_REVERSE, LEASE_STEP, END_STEP, PTR_STEP, STEPS };
/* a side that is longer than it should be has to have room */
enum { MOST_CALLS = 12, MOST_TABLE = 20480, MOST_REVERSE = 35456, MOST_OUT = 2 * VICHRELKA_PTR_LIMIT };

/* a side, and what the second implementation makes of it */
struct side_bytes {
    uint8_t *bytes, *plain;
    size_t len;
    struct room room;
};

static uint8_t table[MOST_TABLE], plain_table[MOST_TABLE], reverse[MOST_REVERSE], plain_reverse[MOST_REVERSE];
static struct side_bytes forward = {.bytes = table, .plain = plain_table}, backward = {.bytes = reverse, .plain = plain_reverse};
static struct room name_room, dhcid_room, address_room, out_room;

/* Sides */

static void put_bytes(struct input *in, uint8_t *bytes, size_t room)
{
    size_t at = take_two(in) % room;
    struct bytes put = take_slice(in, take(in));
    memcpy(bytes + at, put.first, put.len < room - at ? put.len : room - at);
}

/* The slot of a reverse side: the name of a slot of the table, behind an address of these bytes */
static void write_pointer(uint8_t *pointer, uint8_t family, const uint8_t *address, const struct slot *named)
{
    memset(pointer, 0, VICHRELKA_REVERSE_SLOT_LEN);
    pointer[0] = family;
    memcpy(pointer + VICHRELKA_REVERSE_ADDRESS, address, address_size(family));
    pointer[VICHRELKA_REVERSE_NAME_LEN] = named->len;
    memcpy(pointer + VICHRELKA_REVERSE_NAME, named->name, named->len);
}

/* The next unused one, or the last. Its address is one byte over and over, or that of a slot of the table; the name behind it that of the slot, or a small
   one. */
static void put_pointer(struct input *in)
{
    uint8_t *pointer = reverse, choice = take(in), which = take(in), small = take(in), address[16];
    const struct slot *s = (const struct slot *)table + which % VICHRELKA_TABLE_NAMES;
    struct slot named = *s;
    while (pointer < reverse + VICHRELKA_REVERSE_LEN - VICHRELKA_REVERSE_SLOT_LEN && pointer[0] != 0)
        pointer += VICHRELKA_REVERSE_SLOT_LEN;
    uint8_t family = choice & 1 ? 6 : 4;
    if (choice & 2)
        memcpy(address, family == 4 ? s->a : s->aaaa, address_size(family));
    else
        memset(address, which, sizeof address);
    if (choice & 4 || named.len == 0)
        named.len = (uint8_t)small_name(small, named.name);
    write_pointer(pointer, family, address, &named);
}

/* So many addresses: those of a table that was filled, then as many of the other family */
static void fill_reverse(uint8_t addresses)
{
    memset(reverse, 0, sizeof reverse);
    for (size_t i = 0; i < (size_t)addresses % (VICHRELKA_REVERSE_NAMES + 1); i++) {
        struct slot named = numbered_slot(i % VICHRELKA_TABLE_NAMES);
        memset(named.aaaa, (int)i, sizeof named.aaaa);
        int is_first = i < VICHRELKA_TABLE_NAMES;
        write_pointer(reverse + i * VICHRELKA_REVERSE_SLOT_LEN, is_first ? 4 : 6, is_first ? named.a : named.aaaa, &named);
    }
}

/* Calls */

static uint8_t *lend_side(struct side_bytes *side, enum way way)
{
    return lend_or_null(&side->room, way, &(struct bytes){side->bytes, side->len, 0});
}

static int as_plain(const struct side_bytes *side, const uint8_t *lent)
{
    return same(lent, side->plain, side->len);
}

/* NULLS too if a slice is empty */
static enum way last_way(const struct step_arguments *a)
{
    return forward.len == 0 || backward.len == 0 || a->name.len == 0 || a->dhcid.len == 0 || a->address.len == 0 ? NULLS : STARTS;
}

static void call_step(enum step step, const struct step_arguments *a)
{
    uint64_t plain, answer;
    memcpy(plain_table, table, sizeof table);
    memcpy(plain_reverse, reverse, sizeof reverse);
    if (step == LEASE_STEP)
        plain = lease_plain(plain_table, forward.len, plain_reverse, backward.len, a->name.first, a->name.len, a->dhcid.first, a->dhcid.len, a->family,
                            a->address.first, a->address.len, a->policy);
    else
        plain = lease_end_plain(plain_table, forward.len, plain_reverse, backward.len, a->name.first, a->name.len, a->dhcid.first, a->dhcid.len,
                                a->family, a->address.first, a->address.len);
    count(step == LEASE_STEP ? LEASE : END, plain);
    for (enum way way = ENDS; way <= last_way(a); way++) {
        uint8_t *t = lend_side(&forward, way), *r = lend_side(&backward, way);
        const uint8_t *name = lend_or_null(&name_room, way, &a->name);
        const uint8_t *dhcid = lend_or_null(&dhcid_room, way, &a->dhcid);
        const uint8_t *address = lend_or_null(&address_room, way, &a->address);
        if (step == LEASE_STEP)
            answer = vichrelka_lease(t, forward.len, r, backward.len, name, a->name.len, dhcid, a->dhcid.len, a->family, address, a->address.len,
                                     a->policy);
        else
            answer = vichrelka_lease_end(t, forward.len, r, backward.len, name, a->name.len, dhcid, a->dhcid.len, a->family, address, a->address.len);
        agree(step == LEASE_STEP ? "lease" : "end", answer, plain, as_plain(&forward, t) && as_plain(&backward, r),
              is_as_lent(&forward.room, forward.len) && is_as_lent(&backward.room, backward.len) && is_as_lent(&name_room, 0) &&
                  is_as_lent(&dhcid_room, 0) && is_as_lent(&address_room, 0));
    }
    memcpy(table, plain_table, sizeof table);
    memcpy(reverse, plain_reverse, sizeof reverse);
}

/* Of a client's address, into an out of so many bytes */
static void call_ptr(const struct step_arguments *a, size_t out_len)
{
    static uint8_t fill[MOST_OUT], plain_out[MOST_OUT];
    memset(fill, 0xa5, sizeof fill);
    memcpy(plain_out, fill, sizeof fill);
    uint64_t plain = ptr_name_plain(a->family, a->address.first, a->address.len, plain_out, out_len);
    count(PTR, plain);
    for (enum way way = ENDS; way <= (out_len == 0 || a->address.len == 0 ? NULLS : STARTS); way++) {
        const uint8_t *address = lend_or_null(&address_room, way, &a->address);
        uint8_t *o = lend_or_null(&out_room, way, &(struct bytes){fill, out_len, 0});
        uint64_t answer = vichrelka_ptr_name(a->family, address, a->address.len, o, out_len);
        agree("ptr", answer, plain, same(o, plain_out, out_len), is_as_lent(&out_room, out_len) && is_as_lent(&address_room, 0));
    }
}

static void make_step(struct input *in, enum step step)
{
    struct step_arguments a = {.policy = 0};
    uint8_t policy;
    switch (step) {
    case PUT:
        put_bytes(in, table, sizeof table);
        break;
    case SLOT:
        put_slot(in, table);
        break;
    case FILL:
        memset(table, 0, sizeof table);
        fill_table(take(in), table);
        break;
    case LENGTH:
        forward.len = take_two(in) % (MOST_TABLE + 1);
        break;
    case PUT_REVERSE:
        put_bytes(in, reverse, sizeof reverse);
        break;
    case POINTER:
        put_pointer(in);
        break;
    case FILL_REVERSE:
        fill_reverse(take(in));
        break;
    case LENGTH_REVERSE:
        backward.len = take_two(in) % (MOST_REVERSE + 1);
        break;
    case PTR_STEP:
        take_client(in, table, &a);
        call_ptr(&a, take(in) % (MOST_OUT + 1));
        break;
    default:
        policy = take(in);
        a.policy = policy & 2 ? policy : policy & 1;
        a.name = take_name(in, table, a.name_bytes);
        take_client(in, table, &a);
        call_step(step, &a);
    }
}

void try_lease(const uint8_t *input, size_t len)
{
    struct input in = {input, input + len};
    int calls = 0;
    memset(table, 0, sizeof table);
    memset(reverse, 0, sizeof reverse);
    forward.len = VICHRELKA_TABLE_LEN;
    backward.len = VICHRELKA_REVERSE_LEN;
    while (in.at < in.end && calls < MOST_CALLS) {
        enum step step = take(&in) % STEPS;
        calls += step >= LEASE_STEP;
        make_step(&in, step);
    }
}
