/* An input is a program on a table, which is all zeros at first: steps that put bytes there or ask a call, each with its arguments behind it. After
   each call the table of the second implementation is the table. */
#include <string.h>

#include "fuzz.h"

enum step { PUT, SLOT, FILL, LENGTH, ADD_STEP, REMOVE_STEP, CLEAR_STEP, WRITE_STEP, LOAD_STEP, FIND_STEP, COUNT_STEP, STEPS };
/* a table that is longer than it should be has to have room */
enum { MOST_CALLS = 12, MOST_TABLE = 20480 };

static uint8_t table[MOST_TABLE], plain_table[MOST_TABLE], listing[VICHRELKA_WRITTEN_LIMIT + 64];
static size_t table_len;
static struct room table_room, name_room, dhcid_room, address_room, text_room, out_room;

/* Calls */

static int arguments_as_lent(void)
{
    return is_as_lent(&name_room, 0) && is_as_lent(&dhcid_room, 0) && is_as_lent(&address_room, 0);
}

/* NULLS too if a slice is empty */
static enum way last_way(enum step step, const struct step_arguments *a)
{
    return table_len == 0 || a->name.len == 0 || (step != CLEAR_STEP && (a->dhcid.len == 0 || a->address.len == 0)) ? NULLS : STARTS;
}

static void call_step(enum step step, const struct step_arguments *a)
{
    static const enum call CALL[STEPS] = {[ADD_STEP] = ADD, [REMOVE_STEP] = REMOVE, [CLEAR_STEP] = CLEAR};
    struct bytes lent = {table, table_len, 0};
    uint64_t plain, answer;
    memcpy(plain_table, table, table_len);
    if (step == ADD_STEP)
        plain = table_add_plain(plain_table, table_len, a->name.first, a->name.len, a->dhcid.first, a->dhcid.len, a->family, a->address.first,
                                a->address.len, a->policy);
    else if (step == REMOVE_STEP)
        plain = table_remove_plain(plain_table, table_len, a->name.first, a->name.len, a->dhcid.first, a->dhcid.len, a->family, a->address.first,
                                   a->address.len);
    else
        plain = table_clear_plain(plain_table, table_len, a->name.first, a->name.len);
    count(CALL[step], plain);
    for (enum way way = ENDS; way <= last_way(step, a); way++) {
        uint8_t *t = lend_or_null(&table_room, way, &lent);
        const uint8_t *name = lend_or_null(&name_room, way, &a->name);
        const uint8_t *dhcid = lend_or_null(&dhcid_room, way, &a->dhcid);
        const uint8_t *address = lend_or_null(&address_room, way, &a->address);
        if (step == ADD_STEP)
            answer = vichrelka_table_add(t, table_len, name, a->name.len, dhcid, a->dhcid.len, a->family, address, a->address.len, a->policy);
        else if (step == REMOVE_STEP)
            answer = vichrelka_table_remove(t, table_len, name, a->name.len, dhcid, a->dhcid.len, a->family, address, a->address.len);
        else
            answer = vichrelka_table_clear(t, table_len, name, a->name.len);
        agree(CALL_NAMES[CALL[step]], answer, plain, same(t, plain_table, table_len), is_as_lent(&table_room, table_len) && arguments_as_lent());
    }
    memcpy(table, plain_table, table_len);
}

/* They write nothing. */
static void call_find(const struct bytes *name)
{
    uint64_t plain = table_find_plain(table, table_len, name->first, name->len);
    count(FIND, plain);
    for (enum way way = ENDS; way <= (table_len == 0 || name->len == 0 ? NULLS : STARTS); way++) {
        const uint8_t *t = lend_or_null(&table_room, way, &(struct bytes){table, table_len, 0});
        const uint8_t *n = lend_or_null(&name_room, way, name);
        uint64_t answer = vichrelka_table_find(t, table_len, n, name->len);
        agree("find", answer, plain, 1, is_as_lent(&table_room, 0) && is_as_lent(&name_room, 0));
    }
}

static void call_count(void)
{
    uint64_t plain = table_count_plain(table, table_len);
    count(COUNT, plain);
    for (enum way way = ENDS; way <= (table_len == 0 ? NULLS : STARTS); way++) {
        const uint8_t *t = lend_or_null(&table_room, way, &(struct bytes){table, table_len, 0});
        uint64_t answer = vichrelka_table_count(t, table_len);
        agree("count", answer, plain, 1, is_as_lent(&table_room, 0));
    }
}

/* Into an out that is long enough; with choice 1 it is so many bytes less than just so */
static uint64_t call_write(uint8_t choice, uint8_t less)
{
    static uint8_t fill[sizeof listing];
    uint64_t plain = table_write_plain(table, table_len, listing, sizeof listing);
    size_t out_len = sizeof listing;
    memset(fill, 0xa5, sizeof fill);
    memcpy(listing, fill, sizeof listing);
    if (choice & 1)
        out_len = vichrelka_refusal(plain) != 0 ? less : vichrelka_value(plain) > less ? vichrelka_value(plain) - less : 0;
    plain = table_write_plain(table, table_len, listing, out_len);
    count(WRITE, plain);
    for (enum way way = ENDS; way <= (table_len == 0 || out_len == 0 ? NULLS : STARTS); way++) {
        const uint8_t *t = lend_or_null(&table_room, way, &(struct bytes){table, table_len, 0});
        uint8_t *o = lend_or_null(&out_room, way, &(struct bytes){fill, out_len, 0});
        uint64_t answer = vichrelka_table_write(t, table_len, o, out_len);
        agree("write", answer, plain, same(o, listing, out_len), is_as_lent(&table_room, 0) && is_as_lent(&out_room, out_len));
    }
    return plain;
}

/* The table's own listing, with a byte changed or not, into an area that holds the table: changed or not, it comes back as the listing says. */
static void call_load(struct input *in)
{
    size_t text_len = vichrelka_value(call_write(0, 0));
    uint8_t changes = take(in) & 3;
    for (; changes > 0 && text_len > 0; changes--) {
        size_t at = take_two(in) % text_len;
        listing[at] = take(in);
    }
    memcpy(plain_table, table, table_len);
    uint64_t plain = table_load_plain(plain_table, table_len, listing, text_len);
    count(LOAD, plain);
    for (enum way way = ENDS; way <= (table_len == 0 || text_len == 0 ? NULLS : STARTS); way++) {
        uint8_t *t = lend_or_null(&table_room, way, &(struct bytes){table, table_len, 0});
        const uint8_t *text = lend_or_null(&text_room, way, &(struct bytes){listing, text_len, 0});
        uint64_t answer = vichrelka_table_load(t, table_len, text, text_len);
        agree("load", answer, plain, same(t, plain_table, table_len), is_as_lent(&table_room, table_len) && is_as_lent(&text_room, 0));
    }
    memcpy(table, plain_table, table_len);
}

void try_table(const uint8_t *input, size_t len)
{
    struct input in = {input, input + len};
    int calls = 0;
    memset(table, 0, sizeof table);
    table_len = VICHRELKA_TABLE_LEN;
    while (in.at < in.end && calls < MOST_CALLS) {
        struct step_arguments a = {.policy = 0};
        enum step step = take(&in) % STEPS;
        calls += step >= ADD_STEP;
        switch (step) {
        case PUT: {
            size_t at = take_two(&in) % MOST_TABLE;
            struct bytes put = take_slice(&in, take(&in));
            memcpy(table + at, put.first, put.len < MOST_TABLE - at ? put.len : MOST_TABLE - at);
            break;
        }
        case SLOT:
            put_slot(&in, table);
            break;
        case FILL:
            memset(table, 0, sizeof table);
            fill_table(take(&in), table);
            break;
        case LENGTH:
            table_len = take_two(&in) % (MOST_TABLE + 1);
            break;
        case WRITE_STEP: {
            uint8_t choice = take(&in);
            call_write(choice, take(&in));
            break;
        }
        case LOAD_STEP:
            call_load(&in);
            break;
        case FIND_STEP:
            a.name = take_name(&in, table, a.name_bytes);
            call_find(&a.name);
            break;
        case COUNT_STEP:
            call_count();
            break;
        default: {
            uint8_t policy = take(&in);
            a.policy = policy & 2 ? policy : policy & 1;
            a.name = take_name(&in, table, a.name_bytes);
            if (step != CLEAR_STEP)
                take_client(&in, table, &a);
            call_step(step, &a);
        }
        }
    }
}
