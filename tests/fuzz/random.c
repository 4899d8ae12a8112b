/* Inputs for a target by chance, until so many calls were compared: random TARGET SEED CALLS FIND. They are sound with up to three faults, for what is
   random all over is refused at once. A seed gives the same inputs everywhere. An input that ends the program is written to the file FIND. */
#include <fcntl.h>
#include <inttypes.h>
#include <signal.h>
#include <stdio.h>
#include <stdlib.h>
#include <string.h>
#include <unistd.h>

#include "fuzz.h"

/* The input that is being made, and tried */
static uint8_t input[2 * VICHRELKA_LISTING_LIMIT];
static size_t len;
static const char *find_path;

/* Chance */

static uint64_t state;

static uint32_t chance(uint32_t below) /* splitmix64 */
{
    uint64_t z = state += 0x9e3779b97f4a7c15u;
    z = (z ^ z >> 30) * 0xbf58476d1ce4e5b9u;
    z = (z ^ z >> 27) * 0x94d049bb133111ebu;
    return (uint32_t)((z ^ z >> 31) >> 32) % below;
}

static int one_in(uint32_t n) { return chance(n) == 0; }

static void put(uint8_t byte) { input[len++] = byte; }

static void put_random(size_t count)
{
    while (count-- > 0)
        put((uint8_t)chance(256));
}

static void put_text(const char *text)
{
    while (*text)
        put((uint8_t)*text++);
}

/* one of the words of a text */
static const char *one_of(const char *const *words, size_t count) { return words[chance((uint32_t)count)]; }
#define ONE_OF(...) one_of((const char *const[]){__VA_ARGS__}, sizeof(const char *[]){__VA_ARGS__} / sizeof(char *))

/* Up to three bytes behind `from` change, go or come, in two inputs of three. */
static void damage(size_t from)
{
    for (uint32_t faults = one_in(3) ? 0 : chance(4); faults > 0 && len > from; faults--) {
        size_t at = from + chance((uint32_t)(len - from));
        switch (chance(4)) {
        case 0:
            input[at] = (uint8_t)chance(256);
            break;
        case 1:
            input[at] = (uint8_t)(input[at] + (one_in(2) ? 1 : 255));
            break;
        case 2:
            memmove(input + at, input + at + 1, --len - at);
            break;
        default:
            memmove(input + at + 1, input + at, len++ - at);
            input[at] = (uint8_t)chance(256);
        }
    }
    if (one_in(32) && len > from)
        len -= chance((uint32_t)(len - from));
}

/* Messages */

static char label_byte(void) { return "abcdefghijklmnopqrstuvwxyzABCDEFGHIJKLMNOPQRSTUVWXYZ0123456789-_"[chance(64)]; }

/* A name in wire form, mostly proper: short, or around 255 bytes */
static void put_name(void)
{
    int is_long = one_in(8);
    uint32_t labels = one_in(60) ? 0 : is_long ? 4 : 1 + chance(4);
    for (uint32_t i = 0; i < labels; i++) {
        uint32_t label = is_long ? (i < 3 ? 63 : 60 + chance(4)) : 1 + chance(one_in(4) ? 64 : 12);
        put((uint8_t)label);
        for (; label > 0; label--)
            put((uint8_t)(one_in(1000) ? chance(256) : (uint32_t)label_byte()));
    }
    if (!one_in(40))
        put(0);
}

/* What was put since `at` gets its length, in so many bytes before it. */
static void set_length(size_t at, int bytes)
{
    size_t count = len - at;
    input[at - 1] = (uint8_t)count;
    if (bytes == 2)
        input[at - 2] = (uint8_t)(count >> 8);
}

static size_t begin_option(uint32_t family, unsigned code)
{
    if (family == 6) {
        put((uint8_t)(code >> 8));
        put((uint8_t)code);
        put(0);
    } else {
        put((uint8_t)code);
    }
    put(0);
    return len;
}

static void put_client_name(uint32_t family)
{
    size_t at = begin_option(family, family == 6 ? 39 : 81);
    put((uint8_t)(one_in(4) ? chance(256) : 5));
    if (family == 4)
        put_random(2);
    if (one_in(20))
        len = at + chance(3);
    else
        put_name();
    set_length(at, family == 6 ? 2 : 1);
}

static void put_identifier(uint32_t family)
{
    size_t at = begin_option(family, family == 6 ? 1 : 61);
    uint32_t count = one_in(4) ? chance(12) : one_in(4) ? 125 + chance(15) : 6 + chance(20);
    put_random(count);
    if (count > 0 && one_in(2))
        input[at] = 255;
    set_length(at, family == 6 ? 2 : 1);
}

static void put_other(uint32_t family)
{
    static const uint8_t CODES[] = {52, 53, 61, 81, 1, 9, 39, 0, 12, 50, 55, 82};
    size_t at = begin_option(family, one_in(16) ? CODES[chance(sizeof CODES)] : 100 + chance(100));
    put_random(chance(one_in(8) ? 200 : 8));
    set_length(at, family == 6 ? 2 : 1);
}

static void put_options(uint32_t family)
{
    uint32_t left = family == 4 ? 7 : 6; /* a bit for each: client's name, identifier, type */
    if (one_in(8))
        left &= chance(8);
    else if (one_in(3))
        left &= ~2u | (family == 6 ? 2u : 0u);
    if (!one_in(4))
        left |= 1;
    while (left != 0 || one_in(3)) {
        uint32_t which = chance(4);
        uint32_t bit = which < 3 ? 1u << which : 0;
        if (which == 3)
            put_other(family);
        else if (!(left & bit))
            continue;
        else if (which == 0)
            put_client_name(family);
        else if (which == 1)
            put_identifier(family);
        else if (family == 4)
            put_text(one_in(40) ? "\x35\1\1" : "\x35\1\3");
        left &= ~bit;
        if (one_in(50))
            left |= bit;
        if (family == 4 && one_in(8))
            put(0);
    }
}

static void put_v4(void)
{
    put((uint8_t)(one_in(100) ? chance(4) : 1));
    put((uint8_t)(one_in(4) ? chance(256) : 1));
    put((uint8_t)(one_in(8) ? chance(20) : 6));
    put_random(25 + 16);
    memset(input + len, 0, 192);
    len += 192;
    put_text("\x63\x82\x53\x63");
    put_options(4);
    if (!one_in(40))
        put(255);
    if (one_in(8))
        put_random(chance(one_in(8) ? 2000 : 40));
}

static void put_v6(uint32_t relays)
{
    size_t at;
    if (relays == 0) {
        put("\3\5\6\3\5\6\3\1\x0d"[chance(one_in(30) ? 9 : 6)]);
        put_random(3);
        put_options(6);
        return;
    }
    put(12);
    put_random(33);
    if (one_in(3)) {
        at = begin_option(6, 18);
        put_random(chance(9));
        set_length(at, 2);
    }
    for (uint32_t times = one_in(60) ? chance(3) : 1; times > 0; times--) {
        at = begin_option(6, 9);
        put_v6(relays - 1);
        set_length(at, 2);
    }
    if (one_in(8))
        put_other(6);
}

static void make_message(void)
{
    int is6 = one_in(2);
    put((uint8_t)(is6 | (one_in(3) ? 0 : 2) | (one_in(200) ? 4 : 0) | (one_in(200) ? 8 : 0)));
    put((uint8_t)(one_in(16) ? 30 + chance(10) : 35 + chance(30)));
    put(0);
    size_t site = len;
    if (!one_in(30))
        put_name();
    size_t site_len = len - site, more = site_len > 255 ? 16 : 0;
    input[0] |= (uint8_t)more;
    input[site - 1] = (uint8_t)(site_len - more);
    size_t message = len;
    if (is6)
        put_v6(one_in(2) ? 0 : chance(11));
    else
        put_v4();
    if (one_in(12)) { /* in DHCPv4 it is behind End */
        memcpy(input + len, input + site, site_len);
        len += site_len;
    }
    if (one_in(60))
        for (size_t most = VICHRELKA_MESSAGE_LIMIT - 1 + chance(3); len - message < most;)
            put((uint8_t)chance(256));
    damage(one_in(16) ? 0 : is6 || one_in(8) ? message : message + 240);
}

/* Listings */

static void put_blank(void)
{
    do
        put_text(ONE_OF(" ", " ", " ", " ", "\t", "  "));
    while (one_in(8));
}

/* between two words, when parentheses are open or may be */
static void put_gap(int *is_open)
{
    put_blank();
    if (!*is_open && one_in(12)) {
        put_text(ONE_OF("(", "( ", "(;(x)\n"));
        *is_open = 1;
    }
    if (*is_open && one_in(4))
        put_text(ONE_OF("\n", "\n ", " ; a (comment\n", "\n\n\t"));
    if (*is_open && one_in(8)) {
        put_text(one_in(2) ? ")" : ") ");
        *is_open = 0;
    }
}

static void put_word(const char *text)
{
    for (; *text; text++)
        put((uint8_t)(one_in(16) && *text >= 'A' && *text <= 'Z' ? *text + 32 : *text));
}

static void put_number(const char *form, uint32_t number)
{
    char text[16];
    snprintf(text, sizeof text, form, number);
    put_text(text);
}

static void put_dhcid(int *is_open)
{
    static const char BASE64[] = "ABCDEFGHIJKLMNOPQRSTUVWXYZabcdefghijklmnopqrstuvwxyz0123456789+/";
    int is_hex = one_in(3), digits = is_hex ? 64 : 44;
    if (is_hex) {
        put_text("\\#");
        put_gap(is_open);
        put_text("35");
        put_gap(is_open);
        put_text(one_in(200) ? ONE_OF("000301", "000102", "010001") : ONE_OF("000001", "000101", "000201"));
    } else {
        put_text(one_in(200) ? ONE_OF("AAMB", "AAAC", "AQAB") : ONE_OF("AAAB", "AAEB", "AAIB"));
    }
    for (int i = 0; i < digits; i++) {
        if (one_in(24) && (!is_hex || i % 2 == 0))
            put_gap(is_open);
        if (is_hex)
            put((uint8_t)"0123456789abcdefABCDEF"[chance(22)]);
        else /* the last one before the padding has two spare bits */
            put((uint8_t)(i == digits - 1 ? '=' : BASE64[i == digits - 2 && !one_in(200) ? chance(16) * 4 : chance(64)]));
    }
}

/* Owners are few, so that they meet again; some are long. */
static void put_owner(uint32_t owners)
{
    if (one_in(40)) {
        for (int i = 0; i < 3; i++)
            for (int k = 0; k < 64; k++)
                put((uint8_t)(k == 63 ? '.' : label_byte()));
        for (uint32_t k = 59 + chance(4); k > 0; k--)
            put((uint8_t)label_byte());
    } else {
        put_word(ONE_OF("TANK", "tank", "Tank"));
        put_number("-%u", chance(owners));
    }
    put_text(one_in(4) ? ".example.com." : ".");
}

static void put_record(uint32_t owners)
{
    int is_open = 0;
    put_owner(owners);
    put_gap(&is_open);
    if (one_in(3)) {
        put_word("IN");
        put_gap(&is_open);
    }
    switch (chance(3)) {
    case 0:
        put_word("A");
        put_gap(&is_open);
        for (int i = 0; i < 4; i++)
            put_number(i ? ".%u" : "%u", chance(one_in(2000) ? 300 : 256));
        break;
    case 1:
        put_word("AAAA");
        put_gap(&is_open);
        for (int i = 0; i < 8; i++)
            put_number(ONE_OF(i ? ":%x" : "%x", i ? ":%04x" : "%04x", i ? ":%X" : "%X"), chance(one_in(2) ? 65536 : 16));
        break;
    default:
        put_word("DHCID");
        put_gap(&is_open);
        put_dhcid(&is_open);
    }
    if (is_open)
        put_text(ONE_OF(")", " )", "\n)"));
}

static void make_listing(void)
{
    put((uint8_t)(one_in(16) ? chance(3) : 15));
    size_t text = len;
    uint32_t records = one_in(24) ? 60 + chance(one_in(8) ? 240 : 40) : chance(12), owners = one_in(4) ? 1 + 4 * records : 100000;
    for (uint32_t i = 0; i < records; i++) {
        size_t record = len;
        put_record(owners);
        if (one_in(records < 20 ? 40 : 400)) { /* once more, byte for byte */
            size_t record_len = len - record;
            put('\n');
            memcpy(input + len, input + record, record_len);
            len += record_len;
        }
        put_text(ONE_OF("\n", "\n", " ;a comment\n", "\n\n", ";\n  \n", "\t\n"));
    }
    /* the last entry is where a parenthesis may stay open */
    if (one_in(100))
        put_text(ONE_OF("(", " ( ;)", "a. A 1.2.3.4 (", "a. A 1.2.3.4\r\n"));
    damage(one_in(3) ? text : len);
    if (one_in(500))
        for (size_t most = VICHRELKA_LISTING_LIMIT + chance(2); len - text < most;)
            put('\n');
}

/* Tables: the steps are table.c's. */

enum { PUT, SLOT, FILL, LENGTH, FIRST_CALL, CLEAR_CALL = FIRST_CALL + 2, WRITE_CALL, LOAD_CALL, FIND_CALL, COUNT_CALL, STEPS };

/* A small name's choice: proper, in lower case, and seldom one that FILL has as well */
static uint8_t name_choice(void)
{
    return (uint8_t)(chance(38) | (one_in(8) ? chance(4) : 2 + chance(2)) << 6);
}

/* seldom with the type 3, which is none */
static uint8_t dhcid_choice(void)
{
    return (uint8_t)(chance(64) << 2 | (one_in(40) ? 3 : chance(3)));
}

static void put_start(void)
{
    if (one_in(2)) {
        put(FILL);
        put((uint8_t)(one_in(2) ? 64 : chance(65)));
    }
    for (uint32_t slots = chance(6); slots > 0; slots--) {
        uint8_t flags = (uint8_t)(one_in(400) ? chance(256) : 1 + chance(7));
        put(SLOT);
        put(name_choice());
        put(flags);
        put_random((flags & HAS_A ? 1 : 0) + (flags & HAS_AAAA ? 1 : 0));
        if (flags & HAS_DHCID)
            put(dhcid_choice());
    }
}

static void put_two(uint32_t number)
{
    put((uint8_t)(number >> 8));
    put((uint8_t)number);
}

/* The table is damaged: its length, or a byte, mostly one that says something */
static void put_damage(void)
{
    static const uint16_t FIELDS[] = {0, 1, 2, 3, 4, 255, 256, 257, 258, 259, 260, 261, 268, 276, 277, 278, 279, 311};
    enum { COUNT = sizeof FIELDS / sizeof FIELDS[0] };
    if (one_in(8)) {
        put(LENGTH);
        put_two(one_in(3) ? VICHRELKA_TABLE_LEN - 2 + chance(5) : one_in(2) ? VICHRELKA_SLOT_LEN * chance(66) : chance(20481));
        return;
    }
    uint32_t slot = VICHRELKA_SLOT_LEN * (one_in(8) ? 63 : chance(one_in(2) ? 4 : 64));
    put(PUT);
    if (one_in(8)) { /* the root's name, over one of a letter */
        put_two(slot);
        put(3);
        put(1);
        put(0);
        put(0);
        return;
    }
    put_two(slot + (one_in(3) ? chance(VICHRELKA_SLOT_LEN) : FIELDS[chance(COUNT)]));
    put(1);
    put((uint8_t)chance(one_in(2) ? 8 : 256));
}

/* The name of a slot, another one, or what the input says */
static void put_asked_name(uint8_t which)
{
    if (one_in(16)) {
        put(2);
        put(0);
        size_t name = len;
        put_name();
        if (len - name > 255)
            len = name + 255;
        set_length(name, 1);
    } else {
        int is_slot = !one_in(3);
        put((uint8_t)(is_slot ? 1 | chance(2) << 1 : 0));
        put(is_slot ? which : name_choice());
    }
}

/* The client of a slot, another one, or what the input says */
static void put_client(uint8_t which)
{
    if (one_in(24)) {
        put_random(2 + chance(60));
        return;
    }
    int is_holder = one_in(2), is_held = one_in(2);
    uint8_t family = (uint8_t)(chance(2) << 2);
    if (one_in(16)) { /* a DHCID as that of the slot in a table that was filled, but for its last byte, or of another length */
        uint32_t dhcid_len = one_in(2) ? VICHRELKA_DHCID_LEN : VICHRELKA_DHCID_LEN - 1 + chance(3);
        put(2 | 64 | family);
        put((uint8_t)dhcid_len);
        put(0);
        put(0);
        put(1);
        memset(input + len, which, dhcid_len - 3);
        len += dhcid_len - 3;
        input[len - 1] ^= (uint8_t)chance(2);
        put((uint8_t)chance(256));
        return;
    }
    if (one_in(16)) { /* an address of some length */
        static const uint8_t LENGTHS[] = {0, 3, 4, 5, 15, 16, 17};
        uint8_t address_len = LENGTHS[chance(sizeof LENGTHS)];
        put((uint8_t)(is_holder | family | 16 | 32));
        put(is_holder ? which : dhcid_choice());
        put(address_len);
        put_random(address_len);
        return;
    }
    put((uint8_t)(is_holder | family | (is_held ? 8 : 0)));
    put(is_holder ? which : dhcid_choice());
    if (!is_held)
        put((uint8_t)chance(256));
}

/* An add, a remove or a clear: of the name and the client of a slot, of others, or of what the input says */
static void put_call(uint32_t step)
{
    uint8_t which = (uint8_t)chance(one_in(2) ? 8 : 64);
    put((uint8_t)step);
    put((uint8_t)(one_in(100) ? chance(256) : chance(2)));
    put_asked_name(which);
    if (step != CLEAR_CALL)
        put_client(which);
}

static void make_table(void)
{
    put_start();
    for (uint32_t steps = 1 + chance(8); steps > 0; steps--) {
        uint32_t step = FIRST_CALL + chance(STEPS - FIRST_CALL);
        if (one_in(24))
            put_damage();
        if (step <= CLEAR_CALL) {
            put_call(step);
        } else {
            put((uint8_t)step);
            if (step == WRITE_CALL) {
                put((uint8_t)chance(2));
                put((uint8_t)(one_in(2) ? 0 : chance(4)));
            } else if (step == FIND_CALL) {
                put_asked_name((uint8_t)chance(one_in(2) ? 8 : 64));
            } else if (step == LOAD_CALL) {
                uint32_t changes = one_in(2) ? 0 : chance(4);
                put((uint8_t)changes);
                for (; changes > 0; changes--) {
                    put_random(2);
                    put((uint8_t)(one_in(2) ? 32 + chance(95) : chance(256)));
                }
            }
        }
    }
    damage(one_in(16) ? 0 : len);
}

/* Names in text */

/* What put_name has put since `at` becomes a text: each label moves to where its length was, and a dot is behind it. */
static void make_text(size_t at)
{
    while (at < len && input[at] != 0) {
        size_t label = input[at];
        memmove(input + at, input + at + 1, label);
        input[at + label] = '.';
        at += label + 1;
    }
    len = at;
}

/* The text or the name, and an out that has about as much room as it needs */
static void make_name_text(void)
{
    put(0);
    put_name();
    if (one_in(2))
        make_text(1);
    if (one_in(16)) /* what a reader might trim, or take for the end */
        put((uint8_t)" \t\r\n.\0"[chance(6)]);
    damage(1);
    size_t room = len < 3 || one_in(4) ? chance(256) : len - 3 + chance(5);
    input[0] = (uint8_t)(room < 255 ? room : 255);
}

/* Books: the steps are book.c's. */

enum { STAND, GO, COME_MANY, GO_MANY, CHANGE, CUT, BYTES, REPLAY_STEP, TIDY_STEP, SOUND_STEP, BLOCK_STEP };

/* The names that stand, by their choices */
static uint8_t standing[256];
static uint32_t stand_count;

static void note(uint8_t choice, int stands)
{
    uint32_t i = 0;
    while (i < stand_count && standing[i] != choice)
        i++;
    if (stands && i == stand_count)
        standing[stand_count++] = choice;
    else if (!stands && i < stand_count)
        memmove(standing + i, standing + i + 1, --stand_count - i);
}

/* the choice of a numbered slot's name */
static uint8_t numbered_choice(uint32_t number) { return (uint8_t)(number % 38 | number / 38 << 6); }

static void put_many(uint8_t step, uint32_t first, uint32_t names)
{
    put(step);
    put((uint8_t)first);
    put((uint8_t)names);
    for (uint32_t i = first; i < first + names && i < NUMBERED; i++)
        note(numbered_choice(i), step == COME_MANY);
}

/* A name that comes or stands already; but for one in very many its fields are right */
static void put_stand(void)
{
    int again = stand_count > 0 && (one_in(2) || (stand_count >= VICHRELKA_TABLE_NAMES && !one_in(12)));
    uint8_t choice = again ? standing[chance(stand_count)] : one_in(400) ? (uint8_t)chance(256) : name_choice();
    uint8_t flags = (uint8_t)(one_in(400) ? chance(256) : 1 + chance(7));
    put(STAND);
    put(choice);
    put(flags);
    put_random((flags & HAS_A ? 1 : 0) + (flags & HAS_AAAA ? 1 : 0));
    if (flags & HAS_DHCID)
        put((uint8_t)(chance(64) << 2 | (one_in(200) ? 3 : chance(3))));
    note(choice, 1);
}

static void put_go(void)
{
    uint8_t choice = stand_count == 0 || one_in(80) ? name_choice() : standing[one_in(3) ? stand_count - 1 : chance(stand_count)];
    put(GO);
    put(choice);
    note(choice, 0);
}

/* One byte of a block, mostly one that says something, and mostly with the check that is then right */
static void put_change(void)
{
    static const uint16_t FIELDS[] = {0, 1, 2, 3, 4, 5, 6, 7, 8, 9, 260, 261, 262, 265, 266, 281, 282, 283, 284, 316, 317, 400, 478, 479, 480, 511};
    enum { COUNT = sizeof FIELDS / sizeof FIELDS[0] };
    uint8_t choice = (uint8_t)((one_in(4) ? 0 : 1) | (one_in(2) ? 2 : 0));
    put(CHANGE);
    put(choice);
    put((uint8_t)(one_in(3) ? 0 : chance(256)));
    put_two(one_in(3) ? chance(VICHRELKA_BLOCK_LEN) : FIELDS[chance(COUNT)]);
    put((uint8_t)(choice & 2 ? 1u << chance(8) : chance(one_in(2) ? 8 : 256)));
}

static void put_block_call(void)
{
    uint8_t choice = (uint8_t)((one_in(8) ? 1 : 0) | (one_in(16) ? 2 : 0) | (one_in(8) ? 4 : 0));
    put(BLOCK_STEP);
    put(choice);
    put_asked_name((uint8_t)chance(one_in(2) ? 8 : 64));
    put_random(4);
    if (choice & 1) {
        put_two(VICHRELKA_SLOT_LEN * chance(one_in(2) ? 4 : 64) + (one_in(2) ? 0 : chance(VICHRELKA_SLOT_LEN)));
        put((uint8_t)chance(one_in(2) ? 8 : 256));
    }
    if (choice & 2)
        put_two(one_in(2) ? VICHRELKA_TABLE_LEN - 2 + chance(5) : chance(VICHRELKA_TABLE_LEN));
    if (choice & 4)
        put_two(one_in(2) ? VICHRELKA_BLOCK_LEN - 2 + chance(5) : chance(1024));
}

static void put_calls(void)
{
    int is_short = one_in(8);
    put(REPLAY_STEP);
    put((uint8_t)is_short);
    if (is_short)
        put_two(one_in(2) ? VICHRELKA_TABLE_LEN - 2 + chance(5) : chance(VICHRELKA_TABLE_LEN));
    put(TIDY_STEP);
    put((uint8_t)chance(2));
    put((uint8_t)(one_in(2) ? 0 : chance(4)));
    put(SOUND_STEP);
    put_block_call();
}

static void make_book(void)
{
    stand_count = 0;
    if (one_in(3)) {
        uint32_t names = one_in(2) ? 62 + chance(4) : chance(one_in(2) ? NUMBERED + 1 : 40), first = chance(names + 1);
        put_many(COME_MANY, 0, names);
        if (one_in(4))
            put_many(GO_MANY, first, chance(names - first + (one_in(8) ? 2 : 1)));
    }
    for (uint32_t steps = chance(one_in(4) ? 60 : 16); steps > 0; steps--)
        if (one_in(3) && (stand_count > 0 || one_in(80)))
            put_go();
        else
            put_stand();
    if (one_in(3))
        put_change();
    if (one_in(12))
        put_change();
    if (one_in(16)) {
        put(CUT);
        put_two(one_in(2) ? 1 + chance(2) : chance(2000));
    }
    put_calls();
    if (one_in(4)) { /* the book goes on */
        put_stand();
        put_calls();
    }
    damage(one_in(16) ? 0 : len);
}

/* Leases: the steps are lease.c's, of which the first four are table.c's. */

enum { PUT_REVERSE = LENGTH + 1, POINTER, FILL_REVERSE, LENGTH_REVERSE, LEASE_STEP, END_STEP, PTR_STEP };

/* Seldom with an address that a side which was filled has as well */
static void put_pointer(void)
{
    int of_slot = one_in(6);
    put(POINTER);
    put((uint8_t)(chance(2) | (of_slot ? 2 : 0) | chance(2) << 2));
    put((uint8_t)(of_slot ? chance(8) : one_in(40) ? chance(256) : 128 + chance(128)));
    put(name_choice());
}

/* Bytes of a reverse side, from here on in a slot */
static void put_reverse(uint32_t slot, uint32_t at, const void *bytes, size_t count)
{
    put(PUT_REVERSE);
    put_two(VICHRELKA_REVERSE_SLOT_LEN * slot + at);
    put((uint8_t)count);
    memcpy(input + len, bytes, count);
    len += count;
}

/* The reverse side is damaged: its length, a slot, or a byte, mostly one that says something */
static void put_reverse_damage(void)
{
    static const uint16_t FIELDS[] = {0, 1, 4, 5, 6, 15, 16, 17, 18, 19, 20, 21, 82, 271, 272};
    enum { COUNT = sizeof FIELDS / sizeof FIELDS[0] };
    uint32_t slot = one_in(8) ? 127 : chance(one_in(2) ? 4 : 128), number = chance(128);
    uint8_t bytes[255] = {0};
    switch (chance(8)) {
    case 0:
        put(LENGTH_REVERSE);
        put_two(one_in(3) ? VICHRELKA_REVERSE_LEN - 2 + chance(5) : one_in(2) ? VICHRELKA_REVERSE_SLOT_LEN * chance(130) : chance(35457));
        break;
    case 1: /* an unused slot */
        put_reverse(slot, 0, bytes, sizeof bytes);
        put_reverse(slot, sizeof bytes, bytes, VICHRELKA_REVERSE_SLOT_LEN - sizeof bytes);
        break;
    case 2: /* the root's name, over one of a letter */
        bytes[0] = 1;
        put_reverse(slot, VICHRELKA_REVERSE_NAME_LEN, bytes, 4);
        break;
    case 3: /* an address that a filled side has already, or the same bytes with the other family */
        bytes[0] = (uint8_t)(one_in(4) ? 4 + 2 * chance(2) : number < VICHRELKA_TABLE_NAMES ? 4 : 6);
        memset(bytes + 1, number < VICHRELKA_TABLE_NAMES ? 0 : (int)number, 16);
        bytes[4] = (uint8_t)number;
        put_reverse(slot, 0, bytes, 17);
        break;
    default:
        bytes[0] = (uint8_t)chance(one_in(2) ? 8 : 256);
        put_reverse(slot, one_in(3) ? chance(VICHRELKA_REVERSE_SLOT_LEN) : FIELDS[chance(COUNT)], bytes, 1);
    }
}

static void put_ptr(void)
{
    uint8_t choice = (uint8_t)(16 | chance(2) << 2 | (one_in(8) ? 32 : 0) | (one_in(40) ? 128 : 0));
    put(PTR_STEP);
    put(choice);
    put(0);
    if (choice & 128)
        put((uint8_t)chance(8));
    if (choice & 32)
        put((uint8_t)(one_in(2) ? 4 : chance(18)));
    put_random(16);
    if (one_in(8)) { /* an IPv4 address in one of IPv6 */
        memset(input + len - 16, 0, 10);
        memset(input + len - 6, 0xff, 2);
    }
    put((uint8_t)(one_in(4) ? 12 + chance(20) : one_in(4) ? 72 + chance(4) : chance(149)));
}

/* The lease or the end of a slot's name for its own client, with the address that it has or, in sides that were filled, had then */
static void put_own(uint32_t step, uint8_t which, int then)
{
    put((uint8_t)step);
    put(0);
    put(1);
    put(which);
    put(then ? 1 | 16 : 1 | 8);
    put(which);
    if (then) {
        put(0);
        put_two(0);
        put(which);
    }
}

/* In sides that were filled with so many names: something about a slot or the name behind its address is changed, and then its lease ends */
static void put_changed_end(uint32_t names)
{
    uint8_t which = (uint8_t)chance(names), letter = (uint8_t)('a' + chance(26));
    switch (chance(4)) {
    case 0: /* the last letter of the name behind it; from the 39th on a full label is before it */
        put_reverse(which, VICHRELKA_REVERSE_NAME + (which < 38 ? 1 : 65), &letter, 1);
        break;
    case 1: /* it is kept by hand: the A alone, and no DHCID; that of another client is asked with */
        put(PUT);
        put_two(VICHRELKA_SLOT_LEN * which + 256);
        put(56);
        put(HAS_A);
        put(0);
        put_two(0);
        put(which);
        memset(input + len, 0, 51);
        len += 51;
        put(END_STEP);
        put(0);
        put(1);
        put(which);
        put(8);
        put((uint8_t)(which << 2));
        return;
    case 2: /* the client has another address by now */
        put_own(LEASE_STEP, which, 0);
        input[len - 2] = 1;
        put((uint8_t)chance(256));
        put_own(END_STEP, which, 1);
        return;
    default:
        break;
    }
    put_own(END_STEP, which, 0);
}

/* A lease and then the end of it, or one of them alone */
static void put_lease(void)
{
    size_t at = len;
    put_call(LEASE_STEP + chance(2));
    if (input[at] == LEASE_STEP && one_in(3)) {
        size_t step_len = len - at;
        memcpy(input + len, input + at, step_len);
        input[len] = END_STEP;
        len += step_len;
    }
}

static void make_lease(void)
{
    put_start();
    uint32_t names = len > 0 && input[0] == FILL ? input[1] : 0, addresses = one_in(2) ? 0 : one_in(2) ? 126 + chance(3) : chance(126);
    put(FILL_REVERSE);
    put((uint8_t)addresses);
    for (uint32_t pointers = chance(4); pointers > 0; pointers--)
        put_pointer();
    for (uint32_t steps = 1 + chance(8); steps > 0; steps--) {
        if (one_in(48))
            put_damage();
        if (one_in(32))
            put_reverse_damage();
        if (one_in(8))
            put_ptr();
        else if (names > 0 && addresses >= names && one_in(3))
            put_changed_end(names);
        else
            put_lease();
    }
    damage(one_in(16) ? 0 : len);
}

/* Messages for a name server: the calls are update.c's, in its order. */

enum { SERVER_ANSWER = 4, SERVER_CALLS };

/* A name whose bytes are those of a name also from inside its first label on, where a hyphen or a digit is taken for a length; where that is */
static uint8_t put_two_in_one(void)
{
    uint8_t inner = (uint8_t)"-0123456789"[chance(11)], before = (uint8_t)(1 + chance(62u - inner));
    put((uint8_t)(before + 1 + inner));
    for (uint8_t i = 0; i < before; i++)
        put((uint8_t)label_byte());
    put(inner);
    for (uint8_t i = 0; i < inner; i++)
        put((uint8_t)label_byte());
    put_name();
    return (uint8_t)(1 + before);
}

/* A zone that is the end of the name, mostly from a label on, or from this byte on if it is not 0 */
static void put_zone(uint8_t from)
{
    uint8_t change = (uint8_t)((one_in(3) ? 4 : 0) | (one_in(16) ? 8 : 0));
    if (one_in(24)) {
        put(0);
        put(0);
        put_asked_name((uint8_t)chance(64));
        return;
    }
    put((uint8_t)(change | (from != 0 || one_in(16) ? 1 : 2)));
    put((uint8_t)(from != 0 ? from : chance(one_in(4) ? 5 : 2)));
    if (change & 8) {
        put((uint8_t)chance(256));
        put((uint8_t)(one_in(2) ? (uint32_t)label_byte() : chance(256)));
    }
}

static void put_update_call(uint32_t call)
{
    uint8_t from = 0;
    put((uint8_t)call);
    put((uint8_t)(one_in(4) ? 1 + chance(16) : 0));
    if (one_in(4)) {
        put_asked_name((uint8_t)(38 + chance(26))); /* from there on they have two labels */
    } else { /* what the input says, as much as a length can say */
        put(2);
        put(0);
        size_t name = len;
        if (one_in(6))
            from = put_two_in_one();
        else
            put_name();
        if (len - name > 255)
            len = name + 255;
        set_length(name, 1);
    }
    put_client((uint8_t)chance(64));
    put_random(2);
    put_zone(from);
}

/* A header with some code, mostly right, and some bytes behind it */
static void put_answer(void)
{
    uint32_t number = chance(65536), other = one_in(8) ? number ^ 1u << chance(16) : number, count = one_in(6) ? chance(12) : 10 + chance(20);
    put(SERVER_ANSWER);
    put_two(number);
    put_two(other);
    put((uint8_t)count);
    put_random(count);
    if (count > 2) {
        uint8_t *flags = input + len - count;
        flags[0] = (uint8_t)((flags[0] & 7) | (one_in(8) ? chance(32) << 3 : 0xa8));
        if (one_in(2))
            flags[1] = (uint8_t)((flags[1] & 0xf0) | "\0\6\7\x8"[chance(4)]);
    }
}

static void make_update(void)
{
    for (uint32_t calls = 1 + chance(6); calls > 0; calls--) {
        uint32_t call = chance(SERVER_CALLS);
        if (call == SERVER_ANSWER)
            put_answer();
        else
            put_update_call(call);
    }
    damage(one_in(16) ? 0 : len);
}

/* Targets */

static const struct {
    const char *name;
    target_fn *try;
    void (*make)(void);
} targets[] = {{"message", try_message, make_message}, {"listing", try_listing, make_listing}, {"table", try_table, make_table},
             {"name_text", try_name_text, make_name_text}, {"book", try_book, make_book}, {"lease", try_lease, make_lease},
             {"update", try_update, make_update}};
enum { TARGETS = sizeof targets / sizeof targets[0] };

static void on_find(int number)
{
    int file = open(find_path, O_WRONLY | O_CREAT | O_TRUNC, 0644);
    ssize_t written = file < 0 ? -1 : write(file, input, len);
    static const char SAID[] = "a find: its input is written\n", LOST[] = "a find: its input cannot be written\n";
    written = written == (ssize_t)len ? write(2, SAID, sizeof SAID - 1) : write(2, LOST, sizeof LOST - 1);
    _exit(written < 0 ? 3 : number == SIGABRT ? 1 : 2);
}

/* Ctrl-C and SIGTERM: the answers so far are printed. */
static volatile sig_atomic_t is_over;

static void on_stop(int number)
{
    (void)number;
    is_over = 1;
}

static uint64_t calls(void)
{
    uint64_t sum = 0;
    for (int call = 0; call < CALLS; call++)
        for (int number = 0; number < NUMBERS; number++)
            sum += answers[call][number];
    return sum;
}

static void print_answers(void)
{
    for (int call = 0; call < CALLS; call++) {
        int is_first = 1;
        for (int number = 0; number < NUMBERS; number++)
            if (answers[call][number] != 0) {
                if (is_first)
                    printf("%s:", CALL_NAMES[call]);
                is_first = 0;
                if (number == 0)
                    printf(" accepted %" PRIu64, answers[call][number]);
                else
                    printf(", %d %" PRIu64, number, answers[call][number]);
            }
        if (!is_first)
            printf("\n");
    }
}

int main(int argc, char **argv)
{
    int target = 0;
    while (argc == 5 && target < TARGETS && strcmp(argv[1], targets[target].name) != 0)
        target++;
    if (argc != 5 || target == TARGETS) {
        fprintf(stderr, "random: TARGET SEED CALLS FIND, where TARGET is message, listing, table, name_text, book, lease or update\n");
        return 2;
    }
    uint64_t seed = strtoull(argv[2], NULL, 10), most = strtoull(argv[3], NULL, 10), inputs = 0;
    find_path = argv[4];
    signal(SIGABRT, on_find);
    signal(SIGSEGV, on_find);
    signal(SIGBUS, on_find);
    signal(SIGINT, on_stop);
    signal(SIGTERM, on_stop);
    for (; calls() < most && !is_over; inputs++) {
        state = (seed << 40) + (inputs << 8);
        len = 0;
        targets[target].make();
        targets[target].try(input, len);
    }
    printf("%s, seed %" PRIu64 ": %" PRIu64 " inputs, %" PRIu64 " calls, no difference\n", targets[target].name, seed, inputs, calls());
    print_answers();
    return 0;
}
