/*
 * A table of the library and its messages for a name server: one case a line on standard input, one answer a line on standard output. The fields are
 * those of tests/README.md, and harness.c reads them. The table is kept from line to line, and steps are under VICHRELKA_FIRST_WINS.
 *
 *     load LISTING                             the table is now this listing
 *     add NAME DHCID FAMILY ADDRESS            a step on it
 *     remove NAME DHCID FAMILY ADDRESS
 *     listing                                  the table, written out
 *     add_first ID ZONE NAME DHCID FAMILY ADDRESS
 *     add_second ID ZONE NAME DHCID FAMILY ADDRESS
 *     remove_first ID ZONE NAME DHCID FAMILY ADDRESS
 *     remove_second ID ZONE NAME DHCID         a message
 *     answer ID BYTES                          a server's answer, read
 *
 * The answer is `ok VALUE BYTES`, where listing and messages have bytes, or `refused NUMBER at PLACE`.
 */
#include <inttypes.h>
#include <stdio.h>

#include "../harness.h"
#include "vichrelka.h"

static uint8_t table[VICHRELKA_TABLE_LEN];
static uint8_t out[VICHRELKA_WRITTEN_LIMIT];

struct client {
    struct bytes name, dhcid, address;
    uint64_t family;
};

static int take_client(char **rest, struct client *c)
{
    return take_bytes(rest, &c->name) && take_bytes(rest, &c->dhcid) && take_number(rest, UINT32_MAX, &c->family) && take_bytes(rest, &c->address);
}

static int step(char *rest, int is_add, uint64_t *answer)
{
    struct client c;
    if (!take_client(&rest, &c) || !is_whole(rest))
        return 0;
    if (is_add)
        *answer = vichrelka_table_add(table, sizeof table, c.name.first, c.name.len, c.dhcid.first, c.dhcid.len, (uint32_t)c.family, c.address.first,
                                      c.address.len, VICHRELKA_FIRST_WINS);
    else
        *answer = vichrelka_table_remove(table, sizeof table, c.name.first, c.name.len, c.dhcid.first, c.dhcid.len, (uint32_t)c.family, c.address.first,
                                         c.address.len);
    return 1;
}

/* Messages */

typedef uint64_t message_fn(uint16_t id, const uint8_t *zone, size_t zone_len, const uint8_t *name, size_t name_len, const uint8_t *dhcid,
                            size_t dhcid_len, uint32_t family, const uint8_t *address, size_t address_len, uint8_t *written, size_t written_len);

static int message(char *rest, message_fn *call, uint64_t *answer)
{
    struct client c;
    struct bytes zone;
    uint64_t id;
    if (!take_number(&rest, UINT16_MAX, &id) || !take_bytes(&rest, &zone) || !take_client(&rest, &c) || !is_whole(rest))
        return 0;
    *answer = call((uint16_t)id, zone.first, zone.len, c.name.first, c.name.len, c.dhcid.first, c.dhcid.len, (uint32_t)c.family, c.address.first,
                   c.address.len, out, VICHRELKA_UPDATE_LIMIT);
    return 1;
}

static int last_message(char *rest, uint64_t *answer)
{
    struct bytes zone, name, dhcid;
    uint64_t id;
    if (!take_number(&rest, UINT16_MAX, &id) || !take_bytes(&rest, &zone) || !take_bytes(&rest, &name) || !take_bytes(&rest, &dhcid) || !is_whole(rest))
        return 0;
    *answer = vichrelka_update_remove_second((uint16_t)id, zone.first, zone.len, name.first, name.len, dhcid.first, dhcid.len, out,
                                             VICHRELKA_UPDATE_LIMIT);
    return 1;
}

static int read_answer(char *rest, uint64_t *answer)
{
    struct bytes given;
    uint64_t id;
    if (!take_number(&rest, UINT16_MAX, &id) || !take_bytes(&rest, &given) || !is_whole(rest))
        return 0;
    *answer = vichrelka_update_answer((uint16_t)id, given.first, given.len);
    return 1;
}

/* Lines */

/* What a line asks for: its answer, and whether so many bytes of out belong to it; 0 if it is no case */
static int answer_case(char *line, uint64_t *answer, int *has_bytes)
{
    struct bytes text;
    *has_bytes = 0;
    if (take_word(&line, "add"))
        return step(line, 1, answer);
    if (take_word(&line, "remove"))
        return step(line, 0, answer);
    if (take_word(&line, "answer"))
        return read_answer(line, answer);
    if (take_word(&line, "load")) {
        if (!take_bytes(&line, &text) || !is_whole(line))
            return 0;
        *answer = vichrelka_table_load(table, sizeof table, text.first, text.len);
        return 1;
    }
    *has_bytes = 1;
    if (take_word(&line, "listing")) {
        *answer = vichrelka_table_write(table, sizeof table, out, sizeof out);
        return is_whole(line);
    }
    if (take_word(&line, "add_first"))
        return message(line, vichrelka_update_add_first, answer);
    if (take_word(&line, "add_second"))
        return message(line, vichrelka_update_add_second, answer);
    if (take_word(&line, "remove_first"))
        return message(line, vichrelka_update_remove_first, answer);
    return take_word(&line, "remove_second") && last_message(line, answer);
}

int answer_line(char *line)
{
    struct outcome done = {0, out, 0, 1};
    int has_bytes;
    if (!answer_case(line, &done.answer, &has_bytes))
        return 0;
    done.written_len = has_bytes ? vichrelka_value(done.answer) : 0;
    if (vichrelka_refusal(done.answer) != 0)
        printf("refused %" PRIu32 " at %" PRIu32 "\n", vichrelka_refusal(done.answer), vichrelka_place(done.answer));
    else
        print_written(&done);
    return 1;
}
