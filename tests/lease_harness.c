/*
 * Calls the PTR name, a lease and its end on each case in up to three ways, and all have to agree, in the answer and in what they write: with every
 * slice at the end, and at the start, of memory that can be read, and with null pointers for the empty ones. Before each call out is filled, every
 * time with another byte. `again CUT` is two calls: the state is put together that a power cut after so many writes of the first one leaves, from
 * copies of what stood there before and of what the call left, and the same call is made on that.
 */
#include <stdio.h>
#include <string.h>

#include "harness.h"
#include "vichrelka.h"

enum word { PTR, LEASE, END };

struct asked {
    enum word word;
    struct bytes table, reverse, name, dhcid, address;
    uint32_t family, policy;
    size_t out_len;
    int is_again;
    uint64_t cut; /* writes that were done when power failed: 0, 1 or 2 */
};

/* Each way has its own of what is written, so that they can be compared. */
static struct room table_rooms[WAYS], reverse_rooms[WAYS], out_rooms[WAYS], name_room, dhcid_room, address_room;

/* Both sides as a call has left them, the reverse side behind the table */
static uint8_t left[WAYS][2 * ROOM];

static size_t lesser(size_t one, size_t other)
{
    return one < other ? one : other;
}

static int differs(const void *asked, enum way way)
{
    const struct asked *a = asked;
    int has_empty = length(&a->address) == 0 || (a->word == PTR && a->out_len == 0)
        || (a->word != PTR && (length(&a->table) == 0 || length(&a->reverse) == 0 || length(&a->name) == 0 || length(&a->dhcid) == 0));
    return way == NULLS && has_empty;
}

/* Of an out that is longer than a room, so much is filled and compared. */
static uint8_t *lend_out(size_t out_len, enum way way)
{
    static uint8_t fill[ROOM];
    struct bytes out = {fill, lesser(out_len, ROOM), out_len - lesser(out_len, ROOM)};
    memset(fill, 0xa0 + (int)way, out.len);
    return lend_or_null(&out_rooms[way], way, &out);
}

/* So many bytes of out are written as the call answers. */
static void call_ptr(const struct asked *a, enum way way, struct outcome *done)
{
    const uint8_t *address = lend_or_null(&address_room, way, &a->address);
    uint8_t *out = lend_out(a->out_len, way);
    done->answer = vichrelka_ptr_name(a->family, address, length(&a->address), out, a->out_len);
    done->written = out;
    done->written_len = lesser(lesser(a->out_len, ROOM), vichrelka_value(done->answer));
    done->is_as_lent = is_as_lent(&out_rooms[way], done->written_len) && is_as_lent(&address_room, 0);
}

/* A call writes both sides as a whole, unless it is refused. */
static void call_sides(const struct asked *a, enum way way, struct outcome *done)
{
    size_t table_len = length(&a->table), reverse_len = length(&a->reverse), table_written, reverse_written;
    size_t name_len = length(&a->name), dhcid_len = length(&a->dhcid), address_len = length(&a->address);
    uint8_t *table = lend_or_null(&table_rooms[way], way, &a->table);
    uint8_t *reverse = lend_or_null(&reverse_rooms[way], way, &a->reverse);
    const uint8_t *name = lend_or_null(&name_room, way, &a->name);
    const uint8_t *dhcid = lend_or_null(&dhcid_room, way, &a->dhcid);
    const uint8_t *address = lend_or_null(&address_room, way, &a->address);
    if (a->word == LEASE)
        done->answer = vichrelka_lease(table, table_len, reverse, reverse_len, name, name_len, dhcid, dhcid_len, a->family, address, address_len,
                                       a->policy);
    else
        done->answer = vichrelka_lease_end(table, table_len, reverse, reverse_len, name, name_len, dhcid, dhcid_len, a->family, address, address_len);
    table_written = vichrelka_refusal(done->answer) == 0 ? a->table.len : 0;
    reverse_written = vichrelka_refusal(done->answer) == 0 ? a->reverse.len : 0;
    if (table_written > 0)
        memcpy(left[way], table, table_written);
    if (reverse_written > 0)
        memcpy(left[way] + table_written, reverse, reverse_written);
    done->written = left[way];
    done->written_len = table_written + reverse_written;
    done->is_as_lent = is_as_lent(&table_rooms[way], table_written) && is_as_lent(&reverse_rooms[way], reverse_written) && is_as_lent(&name_room, 0)
        && is_as_lent(&dhcid_room, 0) && is_as_lent(&address_room, 0);
}

/* A lease writes the table first, its end the reverse side. A call that is refused writes neither. */
static void call_again(const struct asked *a, enum way way, struct outcome *done)
{
    static uint8_t table[ROOM], reverse[ROOM];
    struct asked other = *a;
    call_sides(a, way, done);
    if (!done->is_as_lent)
        return;
    if (vichrelka_refusal(done->answer) == 0) {
        memcpy(table, left[way], a->table.len);
        memcpy(reverse, left[way] + a->table.len, a->reverse.len);
        if (a->cut > (a->word == LEASE ? 0 : 1))
            other.table.first = table;
        if (a->cut > (a->word == LEASE ? 1 : 0))
            other.reverse.first = reverse;
    }
    call_sides(&other, way, done);
}

static void call(const void *asked, enum way way, struct outcome *done)
{
    const struct asked *a = asked;
    if (a->word == PTR)
        call_ptr(a, way, done);
    else if (a->is_again)
        call_again(a, way, done);
    else
        call_sides(a, way, done);
}

/* The fields of a line, in the order in which a call has its arguments */
static int take_fields(char *line, struct asked *a)
{
    static uint8_t whole_table[ROOM], whole_reverse[ROOM];
    uint64_t family = 0, policy = 0, out_len = 0;
    if (a->word != PTR && !(take_pieces(&line, whole_table, &a->table) && take_pieces(&line, whole_reverse, &a->reverse)
                            && take_bytes(&line, &a->name) && take_bytes(&line, &a->dhcid)))
        return 0;
    if (!take_number(&line, UINT32_MAX, &family) || !take_bytes(&line, &a->address))
        return 0;
    if (a->word == LEASE && !take_number(&line, UINT32_MAX, &policy))
        return 0;
    if (a->word == PTR && !take_number(&line, PTRDIFF_MAX, &out_len))
        return 0;
    a->family = (uint32_t)family;
    a->policy = (uint32_t)policy;
    a->out_len = (size_t)out_len;
    return is_whole(line);
}

int answer_line(char *line)
{
    static const char *const words[] = {"ptr", "lease", "end"};
    struct asked a = {PTR, {NULL, 0, 0}, {NULL, 0, 0}, {NULL, 0, 0}, {NULL, 0, 0}, {NULL, 0, 0}, 0, 0, 0, 0, 0};
    struct outcome done;
    a.is_again = take_word(&line, "again");
    if (a.is_again && !take_number(&line, 2, &a.cut))
        return 0;
    while (!take_word(&line, words[a.word]))
        if (a.word++ == END)
            return 0;
    if ((a.is_again && a.word == PTR) || !take_fields(line, &a))
        return 0;
    if (ask(call, differs, &a, &done))
        print_written(&done);
    return 1;
}
