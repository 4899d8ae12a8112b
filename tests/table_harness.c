/*
 * Calls the steps of the table of names, and find and count, on each case in up to three ways, and all have to agree, in the answer and in the
 * table that they leave: with every slice at the end, and at the start, of memory that can be read, and with null pointers for the empty ones.
 */
#include <inttypes.h>
#include <stdio.h>

#include "harness.h"
#include "vichrelka.h"

enum word { ADD, REMOVE, CLEAR, FIND, COUNT };

struct step {
    enum word word;
    struct bytes table, name, dhcid, address;
    uint32_t family, policy;
};

/* What a call has: add and remove have all arguments, count has the table alone; find and count write nothing. */
static int has_client(const struct step *s)
{
    return s->word == ADD || s->word == REMOVE;
}

static int is_step(const struct step *s)
{
    return has_client(s) || s->word == CLEAR;
}

/* Each way has a table of its own, so that they can be compared. */
static struct room table_rooms[WAYS], name_room, dhcid_room, address_room;

static int differs(const void *asked, enum way way)
{
    const struct step *s = asked;
    int has_empty = length(&s->table) == 0 || (s->word != COUNT && length(&s->name) == 0)
        || (has_client(s) && (length(&s->dhcid) == 0 || length(&s->address) == 0));
    return way == NULLS && has_empty;
}

/* A step writes the table as a whole, unless it is refused. */
static void call(const void *asked, enum way way, struct outcome *done)
{
    const struct step *s = asked;
    size_t table_len = length(&s->table), name_len = length(&s->name), dhcid_len = length(&s->dhcid), address_len = length(&s->address);
    uint8_t *table = lend_or_null(&table_rooms[way], way, &s->table);
    const uint8_t *name = lend_or_null(&name_room, way, &s->name);
    const uint8_t *dhcid = lend_or_null(&dhcid_room, way, &s->dhcid);
    const uint8_t *address = lend_or_null(&address_room, way, &s->address);
    if (s->word == ADD)
        done->answer = vichrelka_table_add(table, table_len, name, name_len, dhcid, dhcid_len, s->family, address, address_len, s->policy);
    else if (s->word == REMOVE)
        done->answer = vichrelka_table_remove(table, table_len, name, name_len, dhcid, dhcid_len, s->family, address, address_len);
    else if (s->word == CLEAR)
        done->answer = vichrelka_table_clear(table, table_len, name, name_len);
    else if (s->word == FIND)
        done->answer = vichrelka_table_find(table, table_len, name, name_len);
    else
        done->answer = vichrelka_table_count(table, table_len);
    done->written = table;
    done->written_len = is_step(s) && vichrelka_refusal(done->answer) == 0 ? s->table.len : 0;
    done->is_as_lent = is_as_lent(&table_rooms[way], done->written_len) && is_as_lent(&name_room, 0) && is_as_lent(&dhcid_room, 0)
        && is_as_lent(&address_room, 0);
}

int answer_line(char *line)
{
    static const char *const words[] = {"add", "remove", "clear", "find", "count"};
    static uint8_t whole[ROOM];
    struct outcome done;
    struct step s = {ADD, {NULL, 0, 0}, {NULL, 0, 0}, {NULL, 0, 0}, {NULL, 0, 0}, 0, 0};
    uint64_t family = 0, policy = 0;
    while (!take_word(&line, words[s.word]))
        if (s.word++ == COUNT)
            return 0;
    if (!take_pieces(&line, whole, &s.table) || (s.word != COUNT && !take_bytes(&line, &s.name)))
        return 0;
    if (has_client(&s) && !(take_bytes(&line, &s.dhcid) && take_number(&line, UINT32_MAX, &family) && take_bytes(&line, &s.address)))
        return 0;
    if ((s.word == ADD && !take_number(&line, UINT32_MAX, &policy)) || !is_whole(line))
        return 0;
    s.family = (uint32_t)family;
    s.policy = (uint32_t)policy;
    if (ask(call, differs, &s, &done)) {
        if (is_step(&s))
            print_written(&done);
        else
            printf("ok %" PRIu32 "\n", vichrelka_value(done.answer));
    }
    return 1;
}
