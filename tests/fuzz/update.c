/* An input is calls, each with its arguments behind it: for a message the room in out, a name, a client, a message number and a zone, which mostly is the
   end of the name from somewhere on; for a server's answer two numbers, the asked one and that of the answer, and bytes. */
#include <string.h>

#include "../../bench/update_plain.h"
#include "fuzz.h"

enum { MOST_CALLS = 8, MOST_OUT = VICHRELKA_UPDATE_LIMIT + 16, MOST_ANSWER = 40 };

struct asked {
    enum call call;
    uint16_t id;
    struct step_arguments client;
    uint8_t zone_bytes[NAME_LIMIT + 1];
    struct bytes zone;
};

static struct room zone_room, name_room, dhcid_room, address_room, out_room, answer_room;

/* the names that an input may choose from */
static uint8_t table[VICHRELKA_TABLE_LEN];

/* Calls: the library's and the second implementation's */

typedef uint64_t message_fn(uint16_t, const uint8_t *, size_t, const uint8_t *, size_t, const uint8_t *, size_t, uint32_t, const uint8_t *, size_t, uint8_t *,
                            size_t);
typedef uint64_t last_fn(uint16_t, const uint8_t *, size_t, const uint8_t *, size_t, const uint8_t *, size_t, uint8_t *, size_t);
enum who { LIBRARY, PLAIN };

static message_fn *const WITH_ADDRESS[][2] = {
    {vichrelka_update_add_first, update_add_first_plain},
    {vichrelka_update_add_second, update_add_second_plain},
    {vichrelka_update_remove_first, update_remove_first_plain},
};
static last_fn *const LAST[] = {vichrelka_update_remove_second, update_remove_second_plain};

/* What is lent for one call, in the order of `struct asked` */
struct lent {
    const uint8_t *zone, *name, *dhcid, *address;
    uint8_t *out;
};

static uint64_t ask(enum who who, const struct asked *a, const struct lent *l, size_t out_len)
{
    const struct step_arguments *c = &a->client;
    if (a->call == REMOVE_SECOND)
        return LAST[who](a->id, l->zone, a->zone.len, l->name, c->name.len, l->dhcid, c->dhcid.len, l->out, out_len);
    return WITH_ADDRESS[a->call - ADD_FIRST][who](a->id, l->zone, a->zone.len, l->name, c->name.len, l->dhcid, c->dhcid.len, c->family, l->address,
                                                  c->address.len, l->out, out_len);
}

static uint64_t ask_plain(const struct asked *a, uint8_t *out, size_t out_len)
{
    const struct step_arguments *c = &a->client;
    return ask(PLAIN, a, &(struct lent){a->zone.first, c->name.first, c->dhcid.first, c->address.first, out}, out_len);
}

/* 0 is room enough, 1 just enough, and others are around that */
static size_t room_for(const struct asked *a, uint8_t choice)
{
    uint8_t out[MOST_OUT];
    size_t needed = vichrelka_value(ask_plain(a, out, sizeof out));
    if (choice == 0)
        return MOST_OUT;
    return choice == 1 ? needed : needed + choice % 16 > 8 ? needed + choice % 16 - 8 : 0;
}

static enum way last_way(const struct asked *a, size_t out_len)
{
    const struct step_arguments *c = &a->client;
    return a->zone.len == 0 || c->name.len == 0 || c->dhcid.len == 0 || c->address.len == 0 || out_len == 0 ? NULLS : STARTS;
}

static void call_message(const struct asked *a, size_t out_len)
{
    static uint8_t fill[MOST_OUT], plain_out[MOST_OUT];
    const struct step_arguments *c = &a->client;
    memset(fill, 0xa5, sizeof fill);
    memcpy(plain_out, fill, sizeof fill);
    uint64_t plain = ask_plain(a, plain_out, out_len);
    count(a->call, plain);
    for (enum way way = ENDS; way <= last_way(a, out_len); way++) {
        const struct lent l = {lend_or_null(&zone_room, way, &a->zone), lend_or_null(&name_room, way, &c->name),
                               lend_or_null(&dhcid_room, way, &c->dhcid), lend_or_null(&address_room, way, &c->address),
                               lend_or_null(&out_room, way, &(struct bytes){fill, out_len, 0})};
        uint64_t answer = ask(LIBRARY, a, &l, out_len);
        agree(CALL_NAMES[a->call], answer, plain, same(l.out, plain_out, out_len),
              is_as_lent(&out_room, out_len) && is_as_lent(&zone_room, 0) && is_as_lent(&name_room, 0) && is_as_lent(&dhcid_room, 0) &&
                  is_as_lent(&address_room, 0));
    }
}

static void call_answer(uint16_t id, const struct bytes *answer)
{
    uint64_t plain = update_answer_plain(id, answer->first, answer->len);
    count(ANSWER, plain);
    for (enum way way = ENDS; way <= (answer->len == 0 ? NULLS : STARTS); way++) {
        const uint8_t *lent = lend_or_null(&answer_room, way, answer);
        uint64_t said = vichrelka_update_answer(id, lent, answer->len);
        agree(CALL_NAMES[ANSWER], said, plain, 1, is_as_lent(&answer_room, 0));
    }
}

/* Arguments */

static uint8_t other_case(uint8_t byte)
{
    return (byte >= 'a' && byte <= 'z') || (byte >= 'A' && byte <= 'Z') ? byte ^ 0x20 : byte;
}

/* Any name; or the end of this one, from a byte on or from a label on, in its own case or the other one, whole or with a byte changed */
static struct bytes take_zone(struct input *in, const struct bytes *name, uint8_t *room)
{
    uint8_t choice = take(in), which = take(in);
    size_t from = 0;
    if ((choice & 3) == 0)
        return take_name(in, table, room);
    if ((choice & 3) == 1)
        from = which % (name->len + 1);
    else
        for (; which > 0 && from < name->len && name->first[from] != 0; which--)
            from += 1 + (size_t)name->first[from];
    struct bytes zone = {room, from < name->len ? name->len - from : 0, 0};
    for (size_t i = 0; i < zone.len; i++)
        room[i] = choice & 4 ? other_case(name->first[from + i]) : name->first[from + i];
    if (choice & 8 && zone.len > 0) {
        size_t at = take(in) % zone.len;
        room[at] = take(in);
    }
    return zone;
}

static void make_message(struct input *in, enum call call)
{
    struct asked a = {.call = call};
    uint8_t room = take(in);
    a.client.name = take_name(in, table, a.client.name_bytes);
    take_client(in, table, &a.client);
    a.id = (uint16_t)take_two(in);
    a.zone = take_zone(in, &a.client.name, a.zone_bytes);
    call_message(&a, room_for(&a, room));
}

/* Bytes of an answer, with the number that it should have unless the two numbers differ */
static void make_answer(struct input *in)
{
    uint8_t bytes[MOST_ANSWER];
    uint16_t asked = (uint16_t)take_two(in), has = (uint16_t)take_two(in);
    struct bytes rest = take_slice(in, take(in) % (MOST_ANSWER - 1));
    bytes[0] = (uint8_t)(has >> 8);
    bytes[1] = (uint8_t)has;
    if (rest.len > 0)
        memcpy(bytes + 2, rest.first, rest.len);
    call_answer(asked, &(struct bytes){bytes, rest.len + 2, 0});
    call_answer(asked, &(struct bytes){bytes, 0, 0});
}

void try_update(const uint8_t *input, size_t len)
{
    struct input in = {input, input + len};
    fill_table(VICHRELKA_TABLE_NAMES, table);
    for (int calls = 0; in.at < in.end && calls < MOST_CALLS; calls++) {
        enum call call = ADD_FIRST + take(&in) % (ANSWER - ADD_FIRST + 1);
        if (call == ANSWER)
            make_answer(&in);
        else
            make_message(&in, call);
    }
}
