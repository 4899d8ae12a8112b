/*
 * The header by itself, as C and as C++: included twice, every name used. Exits 0 if its numbers and functions are as it says.
 */
#include "vichrelka.h"
#include "vichrelka.h"

#include <stdio.h>
#include <string.h>

static const char LISTING[] =
    "tank-a.example.com. A 192.0.2.7\n"
    "client.example.com. A 192.0.2.40\n"
    "client.example.com. DHCID AAABxLmlskllE0MVjd57zHcWmEH3pCQ6VytcKD//7es/deY=\n";

/* RFC 4701, 3.6.1: a Request with this DUID, and the client's name in option 39 from byte 27 on */
static const uint8_t REQUEST[] = {3, 0, 0, 0, 0, 1, 0, 14, 0, 1, 0, 6, 0x41, 0x2d, 0xf1, 0x66, 1, 2, 3, 4, 5, 6, 0, 39, 0, 19, 0,
                                  4, 'c', 'h', 'i', '6', 7, 'e', 'x', 'a', 'm', 'p', 'l', 'e', 3, 'c', 'o', 'm', 0};

static uint64_t check(const char *text, size_t len)
{
    return vichrelka_listing_check((const uint8_t *)text, len);
}

static uint64_t load(uint8_t *table, size_t table_len, const char *text)
{
    return vichrelka_table_load(table, table_len, (const uint8_t *)text, strlen(text));
}

/* The request's answers, with this setting and no name of the site */
static uint64_t name(uint32_t setting)
{
    return vichrelka_name(6, setting, REQUEST, sizeof REQUEST, NULL, 0);
}

static uint64_t dhcid(uint32_t setting, uint8_t *out, size_t out_len)
{
    return vichrelka_dhcid(6, setting, REQUEST, sizeof REQUEST, NULL, 0, out, out_len);
}

static int wrong_numbers(void)
{
    const uint64_t accepted = (uint64_t)0xffffffffu << 32;
    const uint64_t refused = (uint64_t)65535u << 32 | VICHRELKA_REFUSED_ENTRY_DATA;
    const uint64_t last = ~(uint64_t)0;
    const uint64_t chosen = ((uint64_t)VICHRELKA_SOURCE_SITE << 30 | 300u << 8 | 18u) << 32;
    char version[32];
    int wrong = 0;

    wrong |= vichrelka_refusal(accepted) != 0 || vichrelka_value(accepted) != 0xffffffffu || vichrelka_place(accepted) != 0;
    wrong |= vichrelka_refusal(refused) != 24 || vichrelka_value(refused) != 0 || vichrelka_place(refused) != 65535u;
    wrong |= vichrelka_refusal(last) != 0xffffffffu || vichrelka_value(last) != 0 || vichrelka_place(last) != 0xffffffffu;
    sprintf(version, "%d.%d.%d", VICHRELKA_VERSION_MAJOR, VICHRELKA_VERSION_MINOR, VICHRELKA_VERSION_PATCH);
    wrong |= strcmp(VICHRELKA_VERSION, version) != 0;
    wrong |= VICHRELKA_LISTING_LIMIT != 65536 || VICHRELKA_REFUSED_LISTING_LONG != 17 || VICHRELKA_REFUSED_ENTRY_SHAPE != 20;
    wrong |= VICHRELKA_REFUSED_ENTRY_OWNER != 21 || VICHRELKA_REFUSED_ENTRY_TYPE != 22;
    wrong |= VICHRELKA_MESSAGE_LIMIT != 2048 || VICHRELKA_DHCID_LEN != 35;
    wrong |= VICHRELKA_REFUSED_MESSAGE_LENGTH != 1 || VICHRELKA_REFUSED_NOT_BOOTREQUEST != 2 || VICHRELKA_REFUSED_HARDWARE_ADDRESS_LENGTH != 3;
    wrong |= VICHRELKA_REFUSED_OPTIONS_MALFORMED != 4 || VICHRELKA_REFUSED_OPTION_REPEATED != 5 || VICHRELKA_REFUSED_OPTION_OVERLOAD != 6;
    wrong |= VICHRELKA_REFUSED_NOT_A_REQUEST != 7 || VICHRELKA_REFUSED_NO_IDENTIFIER != 8 || VICHRELKA_REFUSED_NO_PROPER_NAME != 9;
    wrong |= VICHRELKA_REFUSED_TOO_MANY_RELAYS != 11 || VICHRELKA_REFUSED_UNKNOWN_SETTING != 12 || VICHRELKA_REFUSED_OUTPUT_SHORT != 13;
    wrong |= VICHRELKA_REFUSED_NOT_A_DHCID != 15 || VICHRELKA_REFUSED_ADDRESS_LENGTH != 16 || VICHRELKA_REFUSED_HELD_BY_ANOTHER != 30;
    wrong |= VICHRELKA_REFUSED_KEPT_BY_HAND != 31 || VICHRELKA_REFUSED_TABLE_FULL != 32 || VICHRELKA_REFUSED_NAME_NOT_HELD != 33;
    wrong |= VICHRELKA_REFUSED_ADDRESS_DIFFERS != 34 || VICHRELKA_REFUSED_TABLE_NOT_SOUND != 40 || VICHRELKA_TABLE_LEN != 19968;
    wrong |= VICHRELKA_TABLE_NAMES != 64 || VICHRELKA_SLOT_LEN != 312 || VICHRELKA_FIRST_WINS != 0 || VICHRELKA_LATEST_WINS != 1;
    wrong |= VICHRELKA_NAME_LIMIT != 255 || VICHRELKA_SLOT_NAME != 1 || VICHRELKA_SLOT_FLAGS != VICHRELKA_SLOT_NAME + VICHRELKA_NAME_LIMIT;
    wrong |= VICHRELKA_SLOT_A != VICHRELKA_SLOT_FLAGS + 1 || VICHRELKA_SLOT_AAAA != VICHRELKA_SLOT_A + 4 || VICHRELKA_SLOT_DHCID != VICHRELKA_SLOT_AAAA + 16;
    wrong |= VICHRELKA_SLOT_DHCID + VICHRELKA_DHCID_LEN != VICHRELKA_SLOT_LEN;
    wrong |= VICHRELKA_REFUSED_RECORD_REPEATED != 35 || VICHRELKA_WRITTEN_LIMIT != 56512;
    wrong |= VICHRELKA_REFUSED_HASH_INPUT_LONG != 14 || VICHRELKA_SOURCE_MESSAGE != 0 || VICHRELKA_SOURCE_SITE != 1;
    wrong |= VICHRELKA_IPV4 != 4 || VICHRELKA_IPV6 != 6 || VICHRELKA_SITE_ONLY != 0 || VICHRELKA_CLIENT_FIRST != 1;
    wrong |= VICHRELKA_NAME_TEXT_LIMIT != 254;
    wrong |= VICHRELKA_REFUSED_WRONG_CHECK != 42 || VICHRELKA_REFUSED_WRONG_FIELD != 43 || VICHRELKA_REFUSED_BLOCK_LENGTH != 44;
    wrong |= VICHRELKA_BLOCK_LEN != 512 || VICHRELKA_TIDIED_LIMIT != 32768;
    wrong |= VICHRELKA_REFUSED_REVERSE_FULL != 46 || VICHRELKA_REVERSE_NAMES != 128 || VICHRELKA_REVERSE_SLOT_LEN != 273 || VICHRELKA_REVERSE_LEN != 34944;
    wrong |= VICHRELKA_REFUSED_NOT_THE_ANSWER != 47 || VICHRELKA_REFUSED_ANOTHER_CODE != 48 || VICHRELKA_UPDATE_LIMIT != 1401;
    wrong |= VICHRELKA_UPDATE_ANSWER_MIN != 12 || VICHRELKA_CODE_DONE != 0 || VICHRELKA_CODE_NAME_IN_USE != 6 || VICHRELKA_CODE_SET_STANDS != 7;
    wrong |= VICHRELKA_CODE_NO_SUCH_SET != 8;
    wrong |= VICHRELKA_REVERSE_ADDRESS != 1 || VICHRELKA_REVERSE_NAME_LEN != VICHRELKA_REVERSE_ADDRESS + 16;
    wrong |= VICHRELKA_REVERSE_NAME != VICHRELKA_REVERSE_NAME_LEN + 1 || VICHRELKA_REVERSE_NAME + VICHRELKA_NAME_LIMIT != VICHRELKA_REVERSE_SLOT_LEN;
    wrong |= VICHRELKA_PTR_LIMIT != 74;

    wrong |= vichrelka_name_source(chosen) != 1 || vichrelka_name_start(chosen) != 300 || vichrelka_name_len(chosen) != 18;
    wrong |= vichrelka_name_source(accepted) != 3 || vichrelka_name_start(accepted) != 0x3fffff || vichrelka_name_len(accepted) != 255;
    wrong |= vichrelka_name_source(refused) != 0 || vichrelka_name_start(refused) != 0 || vichrelka_name_len(refused) != 0;
    return wrong;
}

/* Whether a refusal has these words */
static int says(uint32_t number, const char *words)
{
    return strcmp(vichrelka_refusal_text(number), words) == 0;
}

/* Every number has a text, and no two refusals have the same. 10, 18, 19, 23, 25, 41 and 45 are no refusals of a call for C. */
static int wrong_texts(void)
{
    uint32_t number, other;
    int wrong = 0, known = 0;

    for (number = 0; number < 100; number++) {
        known += !says(number, "unknown refusal");
        for (other = 0; other < number; other++)
            wrong |= !says(number, "unknown refusal") && says(number, vichrelka_refusal_text(other));
    }
    wrong |= known != 34 || !says(0, "accepted") || !says(VICHRELKA_REFUSED_HELD_BY_ANOTHER, "another client holds the name");
    wrong |= !says(10, "unknown refusal") || !says(18, "unknown refusal") || !says(19, "unknown refusal") || !says(23, "unknown refusal");
    wrong |= !says(25, "unknown refusal") || !says(41, "unknown refusal") || !says(45, "unknown refusal") || !says(0xffffffffu, "unknown refusal");
    wrong |= !says(VICHRELKA_REFUSED_TABLE_NOT_SOUND, "a table or reverse side is unsound, or a book has too many names");
    wrong |= !says(VICHRELKA_REFUSED_REVERSE_FULL, "the reverse side has no room for another address");
    wrong |= !says(VICHRELKA_REFUSED_NOT_THE_ANSWER, "the bytes are not a server's answer to this message");
    return wrong;
}

/* Document 01's name of five bytes (docs/RULES.md, 3.1), and a name without a label, which is not proper. A text without its last dot is not one. */
static int wrong_names(void)
{
    static const uint8_t chi[] = {3, 'C', 'h', 'i', 0};
    static const char upper[] = "CHI.";
    uint8_t wire[6] = {0}, text[5] = {0};
    int wrong = 0;

    wire[5] = text[4] = 0x5a;
    wrong |= vichrelka_name_from_text((const uint8_t *)upper, 4, wire, sizeof wire) != (uint64_t)5 << 32;
    wrong |= memcmp(wire, "\3chi", 5) != 0 || wire[5] != 0x5a;
    wrong |= vichrelka_name_from_text((const uint8_t *)upper, 4, wire, 4) != VICHRELKA_REFUSED_OUTPUT_SHORT;
    wrong |= vichrelka_name_from_text((const uint8_t *)upper, 3, wire, sizeof wire) != VICHRELKA_REFUSED_NO_PROPER_NAME;
    wrong |= vichrelka_name_from_text((const uint8_t *)".", 1, wire, sizeof wire) != VICHRELKA_REFUSED_NO_PROPER_NAME;
    wrong |= vichrelka_name_from_text(NULL, 0, NULL, 0) != VICHRELKA_REFUSED_NO_PROPER_NAME;
    wrong |= vichrelka_name_to_text(chi, sizeof chi, text, sizeof text) != (uint64_t)4 << 32;
    wrong |= memcmp(text, "chi.", 4) != 0 || text[4] != 0x5a;
    wrong |= vichrelka_name_to_text(chi, sizeof chi, text, 3) != VICHRELKA_REFUSED_OUTPUT_SHORT;
    wrong |= vichrelka_name_to_text(chi + 4, 1, text, sizeof text) != VICHRELKA_REFUSED_NO_PROPER_NAME;
    return wrong;
}

static int wrong_requests(void)
{
    uint8_t out[36] = {0};
    int wrong = 0;

    wrong |= vichrelka_name_source(name(1)) != VICHRELKA_SOURCE_MESSAGE || vichrelka_name_start(name(1)) != 27 || vichrelka_name_len(name(1)) != 18;
    wrong |= vichrelka_refusal(name(0)) != VICHRELKA_REFUSED_NO_PROPER_NAME || vichrelka_refusal(name(2)) != VICHRELKA_REFUSED_UNKNOWN_SETTING;
    wrong |= vichrelka_refusal(dhcid(1, NULL, 0)) != VICHRELKA_REFUSED_OUTPUT_SHORT;
    wrong |= dhcid(0, out, sizeof out) != VICHRELKA_REFUSED_NO_PROPER_NAME || out[1] != 0;
    out[VICHRELKA_DHCID_LEN] = 0x5a;
    wrong |= dhcid(1, out, sizeof out) != (uint64_t)VICHRELKA_DHCID_LEN << 32 || out[VICHRELKA_DHCID_LEN] != 0x5a;
    wrong |= out[0] != 0 || out[1] != 2 || out[2] != 1 || out[3] != 0x63 || out[4] != 0x6f || out[34] != 0x40;
    return wrong;
}

static int wrong_tables(void)
{
    static uint8_t table[VICHRELKA_TABLE_LEN];
    static const uint8_t name[] = {1, 'A', 0}, address[] = {192, 0, 2, 7}, address6[16] = {0x20, 1, 0xd, 0xb8};
    static const uint8_t client[VICHRELKA_DHCID_LEN] = {0, 1, 1}, another[VICHRELKA_DHCID_LEN] = {0, 2, 1};
    int wrong = 0;

    wrong |= vichrelka_table_add(table, sizeof table, name, 3, client, sizeof client, 4, address, 4, VICHRELKA_FIRST_WINS) != 0;
    wrong |= table[0] != 3 || table[2] != 'a' || table[256] != 5 || table[257] != 192 || table[278] != 1;
    wrong |= vichrelka_table_add(table, sizeof table, name, 3, client, sizeof client, 4, address, 4, VICHRELKA_FIRST_WINS) != (uint64_t)1 << 32;
    wrong |= vichrelka_refusal(vichrelka_table_add(table, sizeof table, name, 3, another, sizeof another, 4, address, 4, VICHRELKA_FIRST_WINS))
             != VICHRELKA_REFUSED_HELD_BY_ANOTHER;
    wrong |= vichrelka_table_add(table, sizeof table, name, 3, another, sizeof another, 4, address, 4, VICHRELKA_LATEST_WINS) != (uint64_t)2 << 32;
    wrong |= vichrelka_table_add(table, sizeof table, name, 3, another, sizeof another, 6, address6, 16, VICHRELKA_FIRST_WINS) != (uint64_t)1 << 32;
    wrong |= vichrelka_table_remove(table, sizeof table, name, 3, another, sizeof another, 4, address, 4) != 0 || table[256] != 6;
    wrong |= vichrelka_refusal(vichrelka_table_remove(table, sizeof table, name, 3, another, sizeof another, 4, address, 4))
             != VICHRELKA_REFUSED_ADDRESS_DIFFERS;
    /* document 02, K1: the name goes with its last address, and another client gets it */
    wrong |= vichrelka_table_remove(table, sizeof table, name, 3, another, sizeof another, 6, address6, 16) != 0;
    wrong |= table[0] != 0 || table[2] != 0 || table[256] != 0 || table[278] != 0;
    wrong |= vichrelka_refusal(vichrelka_table_remove(table, sizeof table, name, 3, another, sizeof another, 6, address6, 16))
             != VICHRELKA_REFUSED_NAME_NOT_HELD;
    wrong |= vichrelka_table_add(table, sizeof table, name, 3, client, sizeof client, 4, address, 4, VICHRELKA_FIRST_WINS) != 0;
    wrong |= vichrelka_table_clear(table, sizeof table, name, 3) != 0 || table[0] != 0 || table[278] != 0;
    wrong |= vichrelka_refusal(vichrelka_table_clear(table, sizeof table, name, 3)) != VICHRELKA_REFUSED_NAME_NOT_HELD;
    wrong |= vichrelka_refusal(vichrelka_table_clear(NULL, 0, name, 3)) != VICHRELKA_REFUSED_TABLE_NOT_SOUND;
    return wrong;
}

static int wrong_listings(void)
{
    int wrong = 0;

    wrong |= vichrelka_listing_check(NULL, 0) != 0;
    wrong |= sizeof LISTING - 1 != 140 || check(LISTING, sizeof LISTING - 1) != (uint64_t)3 << 32;
    wrong |= vichrelka_refusal(check(LISTING, 10)) != VICHRELKA_REFUSED_ENTRY_OWNER;
    wrong |= vichrelka_place(check(LISTING, 70)) != 65 || vichrelka_value(check(LISTING, 70)) != 0;
    wrong |= check(LISTING, 70) != ((uint64_t)65 << 32 | VICHRELKA_REFUSED_ENTRY_OWNER);
    return wrong;
}

/* The two names of the listing, and one that is not there */
static int wrong_finds(void)
{
    static uint8_t table[VICHRELKA_TABLE_LEN];
    static const uint8_t second[] = {6, 'C', 'L', 'I', 'E', 'N', 'T', 7, 'e', 'x', 'a', 'm', 'p', 'l', 'e', 3, 'c', 'o', 'm', 0};
    static const uint8_t absent[] = {1, 'a', 0};
    int wrong = vichrelka_table_count(table, sizeof table) != 0 || load(table, sizeof table, LISTING) != 0;

    wrong |= vichrelka_table_count(table, sizeof table) != (uint64_t)2 << 32;
    wrong |= vichrelka_table_count(NULL, 0) != VICHRELKA_REFUSED_TABLE_NOT_SOUND;
    wrong |= vichrelka_table_find(table, sizeof table, second, sizeof second) != (uint64_t)1 << 32;
    wrong |= vichrelka_table_find(table, sizeof table, table + VICHRELKA_SLOT_NAME, table[0]) != 0;
    wrong |= vichrelka_table_find(table, sizeof table, absent, sizeof absent) != VICHRELKA_REFUSED_NAME_NOT_HELD;
    wrong |= vichrelka_table_find(table, sizeof table, absent, 2) != VICHRELKA_REFUSED_NO_PROPER_NAME;
    wrong |= vichrelka_table_find(table, sizeof table - 1, absent, 2) != VICHRELKA_REFUSED_TABLE_NOT_SOUND;
    return wrong;
}

static int wrong_tables_as_listings(void)
{
    static uint8_t table[VICHRELKA_TABLE_LEN], out[VICHRELKA_WRITTEN_LIMIT];
    int wrong = 0;

    wrong |= load(table, sizeof table, LISTING) != 0 || table[0] != 20 || table[256] != 1 || table[312] != 20 || table[312 + 256] != 5;
    wrong |= vichrelka_value(vichrelka_table_write(table, sizeof table, out, sizeof out)) != 140 || memcmp(out, LISTING, 140) != 0 || out[140] != 0;
    wrong |= vichrelka_refusal(vichrelka_table_write(table, sizeof table, out, 139)) != VICHRELKA_REFUSED_OUTPUT_SHORT;
    wrong |= vichrelka_refusal(vichrelka_table_write(table, sizeof table - 1, out, sizeof out)) != VICHRELKA_REFUSED_TABLE_NOT_SOUND;
    wrong |= vichrelka_refusal(load(table, sizeof table - 1, LISTING)) != VICHRELKA_REFUSED_OUTPUT_SHORT;
    wrong |= load(table, sizeof table, "a. A 1.2.3.4\na. A 1.2.3.4\n") != VICHRELKA_REFUSED_RECORD_REPEATED;
    wrong |= vichrelka_place(load(table, sizeof table, "a. A 1.2.3.4\n(")) != 13 || table[0] != 20;
    wrong |= vichrelka_table_load(table, sizeof table, NULL, 0) != 0 || vichrelka_table_write(table, sizeof table, NULL, 0) != 0;
    return wrong;
}

/* The block of a name of the table, as block number `number` of the book */
static uint64_t block(const uint8_t *table, const uint8_t *name, size_t name_len, uint32_t number, uint8_t *book)
{
    return vichrelka_book_block(table, VICHRELKA_TABLE_LEN, name, name_len, number, book + number * VICHRELKA_BLOCK_LEN, VICHRELKA_BLOCK_LEN);
}

/* Document 02, K5: the two names of the listing as a book, and then a block by which the first one is gone. The checks are from Python's hashlib. */
static int wrong_books(void)
{
    enum { BLOCK = VICHRELKA_BLOCK_LEN, CHECK = 480 };
    static uint8_t table[VICHRELKA_TABLE_LEN], again[VICHRELKA_TABLE_LEN], book[3 * BLOCK], tidied[VICHRELKA_TIDIED_LIMIT];
    static const uint8_t first[] = {6, 'T', 'A', 'N', 'K', '-', 'a', 7, 'e', 'x', 'a', 'm', 'p', 'l', 'e', 3, 'c', 'o', 'm', 0};
    static const uint8_t second[] = {6, 'c', 'l', 'i', 'e', 'n', 't', 7, 'e', 'x', 'a', 'm', 'p', 'l', 'e', 3, 'c', 'o', 'm', 0};
    static const uint8_t stands[] = {0xf3, 0x83, 0x28, 0x3a, 0x68, 0x3c, 0x2b, 0xbd}, gone[] = {0x93, 0xbf, 0x6e, 0x04, 0x80, 0x7a, 0x2e, 0x8f};
    int wrong = load(table, sizeof table, LISTING) != 0;

    wrong |= block(table, first, sizeof first, 0, book) != (uint64_t)BLOCK << 32 || block(table, second, sizeof second, 1, book) != (uint64_t)BLOCK << 32;
    wrong |= book[3] != 0 || book[4] != 1 || memcmp(book + 5, table, VICHRELKA_SLOT_LEN) != 0 || memcmp(book + CHECK, stands, sizeof stands) != 0;
    wrong |= vichrelka_book_replay(again, sizeof again, book, 2 * BLOCK) != 0 || memcmp(again, table, sizeof table) != 0;
    wrong |= vichrelka_table_clear(table, sizeof table, first, sizeof first) != 0;
    wrong |= block(table, first, sizeof first, 2, book) != (uint64_t)BLOCK << 32;
    wrong |= book[2 * BLOCK + 3] != 2 || book[2 * BLOCK + 4] != 0 || memcmp(book + 2 * BLOCK + CHECK, gone, sizeof gone) != 0;
    wrong |= vichrelka_book_sound(book, sizeof book) != (uint64_t)3 << 32 || vichrelka_book_sound(book, sizeof book - 1) != (uint64_t)2 << 32;
    wrong |= vichrelka_book_replay(again, sizeof again, book, sizeof book) != 0 || memcmp(again, table, sizeof table) != 0;
    wrong |= vichrelka_book_tidy(book, sizeof book, tidied, sizeof tidied) != (uint64_t)BLOCK << 32;
    wrong |= tidied[3] != 0 || tidied[4] != 1 || memcmp(tidied + 5, table, VICHRELKA_SLOT_LEN) != 0;

    wrong |= vichrelka_book_replay(again, sizeof again, book, sizeof book - 1) != VICHRELKA_REFUSED_BLOCK_LENGTH;
    wrong |= vichrelka_book_replay(again, sizeof again, book + BLOCK, BLOCK) != VICHRELKA_REFUSED_WRONG_FIELD;
    wrong |= vichrelka_book_replay(again, sizeof again - 1, book, sizeof book) != VICHRELKA_REFUSED_OUTPUT_SHORT;
    wrong |= vichrelka_book_tidy(book, sizeof book, tidied, BLOCK - 1) != VICHRELKA_REFUSED_OUTPUT_SHORT;
    book[CHECK - 1] = 1;
    wrong |= vichrelka_book_tidy(book, sizeof book, NULL, 0) != VICHRELKA_REFUSED_WRONG_CHECK || vichrelka_book_sound(book, sizeof book) != 0;
    wrong |= memcmp(again, table, sizeof table) != 0;
    wrong |= vichrelka_book_block(table, sizeof table, first, sizeof first - 1, 0, book, BLOCK) != VICHRELKA_REFUSED_NO_PROPER_NAME;
    wrong |= vichrelka_book_block(table, sizeof table - 1, first, sizeof first, 0, book, BLOCK) != VICHRELKA_REFUSED_TABLE_NOT_SOUND;
    wrong |= vichrelka_book_block(table, sizeof table, first, sizeof first, 0, book, BLOCK - 1) != VICHRELKA_REFUSED_OUTPUT_SHORT;
    wrong |= vichrelka_book_replay(again, sizeof again, NULL, 0) != 0 || again[0] != 0 || vichrelka_book_sound(NULL, 0) != 0;
    return wrong;
}

/* Document 02, K7: the PTR names of the header's two addresses, the first one byte for byte */
static int wrong_ptr_names(void)
{
    static const uint8_t address[] = {192, 0, 2, 31}, address6[16] = {0x20, 1, 0xd, 0xb8, 0, 0, 0, 0, 0, 0, 0, 0, 0, 0, 0, 7};
    static const char wire[] = "\00231\0012\0010\003192\007in-addr\004arpa";
    static const char text[] = "7.0.0.0.0.0.0.0.0.0.0.0.0.0.0.0.0.0.0.0.0.0.0.0.8.b.d.0.1.0.0.2.ip6.arpa.";
    uint8_t out[VICHRELKA_PTR_LIMIT], as_text[VICHRELKA_NAME_TEXT_LIMIT];
    int wrong = sizeof wire != 25 || sizeof text - 1 != 73;

    memset(out, 0x5a, sizeof out);
    wrong |= vichrelka_ptr_name(VICHRELKA_IPV4, address, sizeof address, out, 24) != VICHRELKA_REFUSED_OUTPUT_SHORT || out[0] != 0x5a;
    wrong |= vichrelka_ptr_name(VICHRELKA_IPV4, address, sizeof address, out, sizeof out) != (uint64_t)25 << 32;
    wrong |= memcmp(out, wire, sizeof wire) != 0 || out[25] != 0x5a;
    wrong |= vichrelka_ptr_name(VICHRELKA_IPV6, address6, sizeof address6, out, sizeof out - 1) != VICHRELKA_REFUSED_OUTPUT_SHORT;
    wrong |= vichrelka_ptr_name(VICHRELKA_IPV6, address6, sizeof address6, out, sizeof out) != (uint64_t)74 << 32;
    wrong |= vichrelka_name_to_text(out, sizeof out, as_text, sizeof as_text) != (uint64_t)73 << 32 || memcmp(as_text, text, 73) != 0;
    wrong |= vichrelka_ptr_name(5, address, sizeof address, NULL, 0) != VICHRELKA_REFUSED_UNKNOWN_SETTING;
    wrong |= vichrelka_ptr_name(VICHRELKA_IPV6, address, sizeof address, NULL, 0) != VICHRELKA_REFUSED_ADDRESS_LENGTH;
    return wrong;
}

/* Both sides of the leases below */
static uint8_t table_side[VICHRELKA_TABLE_LEN], reverse_side[VICHRELKA_REVERSE_LEN];
static const uint8_t LEASED[] = {192, 0, 2, 7}, LEASED6[16] = {0x20, 1, 0xd, 0xb8};
static const uint8_t CLIENT[VICHRELKA_DHCID_LEN] = {0, 1, 1}, ANOTHER[VICHRELKA_DHCID_LEN] = {0, 2, 1};

static void empty_sides(void)
{
    memset(table_side, 0, sizeof table_side);
    memset(reverse_side, 0, sizeof reverse_side);
}

static uint64_t lease(char letter, const uint8_t *client, uint32_t family, const uint8_t *address, uint32_t policy)
{
    const uint8_t name[] = {1, (uint8_t)letter, 0};

    return vichrelka_lease(table_side, sizeof table_side, reverse_side, sizeof reverse_side, name, sizeof name, client, VICHRELKA_DHCID_LEN,
                           family, address, family == 4 ? 4 : 16, policy);
}

static uint64_t lease_end(char letter, const uint8_t *client, uint32_t family, const uint8_t *address)
{
    const uint8_t name[] = {1, (uint8_t)letter, 0};

    return vichrelka_lease_end(table_side, sizeof table_side, reverse_side, sizeof reverse_side, name, sizeof name, client, VICHRELKA_DHCID_LEN,
                               family, address, family == 4 ? 4 : 16);
}

/* Whether a slot of the reverse side has this family and this letter's name; 0 and 0 for a slot of zeros */
static int is_behind(size_t slot, uint8_t family, char letter)
{
    const uint8_t *bytes = reverse_side + slot * VICHRELKA_REVERSE_SLOT_LEN;

    return bytes[0] == family && bytes[VICHRELKA_REVERSE_NAME_LEN] == (family == 0 ? 0 : 3) && bytes[VICHRELKA_REVERSE_NAME + 1] == (uint8_t)letter;
}

/* Document 02, K7: names behind addresses, which come, are replaced, stay and go */
static int wrong_leases(void)
{
    int wrong = 0;

    empty_sides();
    wrong |= lease('A', CLIENT, 4, LEASED, VICHRELKA_FIRST_WINS) != 0 || table_side[0] != 3 || !is_behind(0, 4, 'a') || !is_behind(1, 0, 0);
    wrong |= memcmp(reverse_side + VICHRELKA_REVERSE_ADDRESS, LEASED, sizeof LEASED) != 0;
    wrong |= lease('a', CLIENT, 4, LEASED, VICHRELKA_FIRST_WINS) != (uint64_t)1 << 32 || !is_behind(0, 4, 'a');
    wrong |= lease('a', ANOTHER, 6, LEASED6, VICHRELKA_FIRST_WINS) != VICHRELKA_REFUSED_HELD_BY_ANOTHER || !is_behind(1, 0, 0);
    wrong |= lease('b', ANOTHER, 4, LEASED, VICHRELKA_FIRST_WINS) != 0 || !is_behind(0, 4, 'b') || !is_behind(1, 0, 0);
    wrong |= lease('a', CLIENT, 6, LEASED6, VICHRELKA_FIRST_WINS) != (uint64_t)1 << 32 || !is_behind(0, 4, 'b') || !is_behind(1, 6, 'a');
    wrong |= lease('b', CLIENT, 4, LEASED, VICHRELKA_LATEST_WINS) != (uint64_t)2 << 32 || !is_behind(0, 4, 'b');
    wrong |= lease('a', CLIENT, 4, LEASED, 2) != VICHRELKA_REFUSED_UNKNOWN_SETTING || lease('.', CLIENT, 4, LEASED, 0) != VICHRELKA_REFUSED_NO_PROPER_NAME;

    /* another's name is behind the address and stays; then it goes with its own end, and the next one moves up */
    wrong |= lease_end('a', CLIENT, 4, LEASED) != 0 || !is_behind(0, 4, 'b') || !is_behind(1, 6, 'a');
    wrong |= lease_end('a', CLIENT, 4, LEASED) != VICHRELKA_REFUSED_ADDRESS_DIFFERS;
    wrong |= lease_end('b', ANOTHER, 4, LEASED) != VICHRELKA_REFUSED_HELD_BY_ANOTHER || !is_behind(0, 4, 'b');
    wrong |= lease_end('B', CLIENT, 4, LEASED) != 0 || !is_behind(0, 6, 'a') || !is_behind(1, 0, 0);
    wrong |= lease_end('b', CLIENT, 4, LEASED) != VICHRELKA_REFUSED_NAME_NOT_HELD;

    /* a reverse side that is not sound, and a table */
    reverse_side[VICHRELKA_REVERSE_LEN - 1] = 1;
    wrong |= lease('a', CLIENT, 4, LEASED, 0) != VICHRELKA_REFUSED_TABLE_NOT_SOUND || lease_end('a', CLIENT, 6, LEASED6) != VICHRELKA_REFUSED_TABLE_NOT_SOUND;
    reverse_side[VICHRELKA_REVERSE_LEN - 1] = 0;
    table_side[VICHRELKA_TABLE_LEN - 1] = 1;
    wrong |= lease('a', CLIENT, 4, LEASED, 0) != VICHRELKA_REFUSED_TABLE_NOT_SOUND || lease_end('a', CLIENT, 6, LEASED6) != VICHRELKA_REFUSED_TABLE_NOT_SOUND;
    table_side[VICHRELKA_TABLE_LEN - 1] = 0;
    return wrong;
}

/* Document 02, K7: a full reverse side, and a lease and its end that are cut between their two steps */
static int wrong_full_and_cut(void)
{
    static uint8_t table[VICHRELKA_TABLE_LEN], reverse[VICHRELKA_REVERSE_LEN];
    uint8_t address[] = {10, 0, 0, 0};
    int wrong = 0;

    empty_sides();
    for (; address[3] < VICHRELKA_REVERSE_NAMES; address[3]++)
        wrong |= lease('a', CLIENT, 4, address, VICHRELKA_FIRST_WINS) != (uint64_t)(address[3] > 0) << 32;
    wrong |= lease('a', ANOTHER, 4, address, VICHRELKA_FIRST_WINS) != VICHRELKA_REFUSED_REVERSE_FULL || !is_behind(127, 4, 'a');
    wrong |= lease_end('a', CLIENT, 4, address) != VICHRELKA_REFUSED_ADDRESS_DIFFERS;
    address[3] = 127;

    /* the end: its reverse step alone, and then the same again, and once more */
    memcpy(table, table_side, sizeof table);
    wrong |= lease_end('a', CLIENT, 4, address) != 0 || table_side[0] != 0 || !is_behind(126, 4, 'a') || !is_behind(127, 0, 0);
    memcpy(table_side, table, sizeof table);
    memcpy(reverse, reverse_side, sizeof reverse);
    wrong |= lease_end('a', CLIENT, 4, address) != 0 || table_side[0] != 0 || memcmp(reverse, reverse_side, sizeof reverse) != 0;
    wrong |= lease_end('a', CLIENT, 4, address) != VICHRELKA_REFUSED_NAME_NOT_HELD;

    /* the lease: its forward step alone, and then the same again */
    wrong |= lease('a', CLIENT, 4, address, VICHRELKA_FIRST_WINS) != 0 || !is_behind(127, 4, 'a') || memcmp(table, table_side, sizeof table) != 0;
    memcpy(reverse_side, reverse, sizeof reverse);
    wrong |= lease('a', CLIENT, 4, address, VICHRELKA_FIRST_WINS) != (uint64_t)1 << 32 || !is_behind(127, 4, 'a');
    wrong |= memcmp(table, table_side, sizeof table) != 0;
    return wrong;
}

/* Document 02, K8: how long the four messages of a name are, a refusal each, and a server's answers */
static int wrong_updates(void)
{
    static const uint8_t name[] = {1, 'A', 1, 'z', 0}, zone[] = {1, 'Z', 0};
    const uint8_t *a = LEASED6, *c = CLIENT;
    uint8_t out[VICHRELKA_UPDATE_LIMIT], answer[VICHRELKA_UPDATE_ANSWER_MIN] = {0x12, 0x34, 0xa8, 6};
    int wrong = 0;

    memset(out, 0x5a, sizeof out);
    wrong |= vichrelka_update_add_first(0x1234, zone, 3, name, 5, c, 35, 6, a, 16, out, 114) != VICHRELKA_REFUSED_OUTPUT_SHORT || out[0] != 0x5a;
    wrong |= vichrelka_update_add_first(0x1234, zone, 3, name, 5, c, 35, 6, a, 16, out, 115) != (uint64_t)115 << 32;
    wrong |= out[0] != 0x12 || out[1] != 0x34 || out[2] != 0x28 || out[13] != 'z' || out[20] != 'a' || out[115] != 0x5a;
    wrong |= vichrelka_update_add_second(0, zone, 3, name, 5, c, 35, 4, a, 4, out, sizeof out) != (uint64_t)103 << 32;
    wrong |= vichrelka_update_remove_first(0, zone, 3, name, 5, c, 35, 4, a, 4, out, sizeof out) != (uint64_t)107 << 32;
    wrong |= vichrelka_update_remove_second(65535, zone, 3, name, 5, c, 35, out, sizeof out) != (uint64_t)149 << 32;
    wrong |= vichrelka_update_add_second(0, name, 5, zone, 3, c, 35, 4, a, 4, out, sizeof out) != VICHRELKA_REFUSED_NO_PROPER_NAME;
    wrong |= vichrelka_update_remove_first(0, zone, 3, name, 5, c, 35, 5, a, 4, out, sizeof out) != VICHRELKA_REFUSED_UNKNOWN_SETTING;
    wrong |= vichrelka_update_remove_second(0, zone, 3, name, 5, c, 34, out, sizeof out) != VICHRELKA_REFUSED_NOT_A_DHCID;
    wrong |= vichrelka_update_answer(0x1234, answer, sizeof answer) != (uint64_t)VICHRELKA_CODE_NAME_IN_USE << 32;
    wrong |= vichrelka_update_answer(0x1234, answer, sizeof answer - 1) != VICHRELKA_REFUSED_NOT_THE_ANSWER;
    wrong |= vichrelka_update_answer(0x1235, answer, sizeof answer) != VICHRELKA_REFUSED_NOT_THE_ANSWER;
    answer[3] = 5;
    wrong |= vichrelka_update_answer(0x1234, answer, sizeof answer) != VICHRELKA_REFUSED_ANOTHER_CODE;
    return wrong;
}

/* An answer kept in an int, which no compiler warns of unasked: a refusal is still told, and a value is 0 at the first try. */
static int wrong_slips(void)
{
    static uint8_t table[VICHRELKA_TABLE_LEN], out[VICHRELKA_WRITTEN_LIMIT];
    static const uint8_t held[] = {6, 'c', 'l', 'i', 'e', 'n', 't', 7, 'e', 'x', 'a', 'm', 'p', 'l', 'e', 3, 'c', 'o', 'm', 0};
    static const uint8_t by_hand[] = {6, 't', 'a', 'n', 'k', '-', 'a', 7, 'e', 'x', 'a', 'm', 'p', 'l', 'e', 3, 'c', 'o', 'm', 0};
    static const uint8_t name[] = {1, 'a', 0}, address[] = {192, 0, 2, 7}, client[VICHRELKA_DHCID_LEN] = {0, 1, 1};
    int rc = load(table, sizeof table, LISTING), wrong = rc != 0;

    rc = vichrelka_table_add(table, sizeof table, held, sizeof held, client, sizeof client, 4, address, 4, VICHRELKA_FIRST_WINS);
    wrong |= rc != VICHRELKA_REFUSED_HELD_BY_ANOTHER;
    rc = vichrelka_table_add(table, sizeof table, by_hand, sizeof by_hand, client, sizeof client, 4, address, 4, VICHRELKA_FIRST_WINS);
    wrong |= rc != VICHRELKA_REFUSED_KEPT_BY_HAND;
    rc = vichrelka_table_add(table, sizeof table, name, sizeof name, client, sizeof client, 4, address, 4, VICHRELKA_FIRST_WINS);
    wrong |= rc != 0;
    rc = vichrelka_table_write(table, sizeof table, out, sizeof out);
    wrong |= rc != 0 || out[0] != 't';
    rc = check(LISTING, 70);
    wrong |= rc != VICHRELKA_REFUSED_ENTRY_OWNER;
    return wrong;
}

int main(void)
{
    return wrong_numbers() | wrong_texts() | wrong_names() | wrong_requests() | wrong_listings() | wrong_tables() | wrong_finds()
           | wrong_tables_as_listings() | wrong_books() | wrong_ptr_names() | wrong_leases() | wrong_full_and_cut() | wrong_updates() | wrong_slips();
}
