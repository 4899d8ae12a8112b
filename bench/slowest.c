/* The slowest input that was found for each call of vichrelka.h: see bench/slowest.sh.
 *
 * The inputs were made from what the code does with each byte: as many options, labels, words or entries as fit, names and addresses that are alike up to
 * their ends, and names that the first test of a load does not tell apart. Books have 10,000 blocks: the time grows with that number, and with its square if
 * there are more names than a table has room for. Each is timed, and the slowest of each call is printed. Every answer is checked. */
#include <stdbool.h>
#include <stdio.h>
#include <string.h>

#include "measure.h"
#include "vichrelka.h"

enum { ROUNDS = 25, ROUNDS_LEAST = 3 };
static const double ROUND_SECONDS = 0.004, CASE_SECONDS = 2;

static const char IN_LABEL[] = "abcdefghijklmnopqrstuvwxyz0123456789-_";
enum { LABEL_BYTES = sizeof IN_LABEL - 1 };

/* Bytes that are put together, no more than there is room for */

struct bytes {
    size_t len;
    uint8_t at[VICHRELKA_LISTING_LIMIT];
};

static bool put(struct bytes *b, const void *more, size_t len)
{
    if (len > sizeof b->at - b->len)
        return false;
    memcpy(b->at + b->len, more, len);
    b->len += len;
    return true;
}

static bool put_text(struct bytes *b, const char *text)
{
    return put(b, text, strlen(text));
}

static void put_byte(struct bytes *b, unsigned byte)
{
    uint8_t one = (uint8_t)byte;
    put(b, &one, 1);
}

/* The same bytes over and over, as often as they fit into so many */
static void fill_up(struct bytes *b, size_t limit, const void *more, size_t len)
{
    while (b->len + len <= limit && put(b, more, len))
        ;
}

/* Names */

/* in text, so many labels of one byte, then one of the letters of the number */
static void alike(char *text, int labels, const char *last, int i)
{
    for (int k = 0; k < labels; k++)
        text += sprintf(text, "a.");
    sprintf(text, "%s%c%c.", last, IN_LABEL[i / LABEL_BYTES], IN_LABEL[i % LABEL_BYTES]);
}

static size_t wire(const char *text, uint8_t *name)
{
    return vichrelka_value(vichrelka_name_from_text((const uint8_t *)text, strlen(text), name, VICHRELKA_NAME_LIMIT));
}

static const char *long_labels(int i)
{
    static char text[VICHRELKA_NAME_TEXT_LIMIT + 1];
    for (int at = 0; at < VICHRELKA_NAME_TEXT_LIMIT; at++)
        text[at] = at % 64 == 63 ? '.' : 'a';
    /* the last two letters tell 1,444 names; only further ones have another before them */
    text[VICHRELKA_NAME_TEXT_LIMIT - 4] = IN_LABEL[i / (LABEL_BYTES * LABEL_BYTES)];
    text[VICHRELKA_NAME_TEXT_LIMIT - 3] = IN_LABEL[i / LABEL_BYTES % LABEL_BYTES];
    text[VICHRELKA_NAME_TEXT_LIMIT - 2] = IN_LABEL[i % LABEL_BYTES];
    text[VICHRELKA_NAME_TEXT_LIMIT - 1] = '.';
    return text;
}

static const char *short_labels(int i)
{
    static char text[VICHRELKA_NAME_TEXT_LIMIT + 1];
    alike(text, 125, "", i);
    return text;
}

/* the same for more names, with a last label of three letters */
static const char *many_labels(int i)
{
    static char text[VICHRELKA_NAME_TEXT_LIMIT + 1];
    alike(text, 124, (char[]){IN_LABEL[i / (LABEL_BYTES * LABEL_BYTES)], 0}, i % (LABEL_BYTES * LABEL_BYTES));
    return text;
}

static const char *one_byte_labels(int i)
{
    static char text[VICHRELKA_NAME_TEXT_LIMIT + 1];
    for (int at = 0; at < VICHRELKA_NAME_TEXT_LIMIT; at++)
        text[at] = at % 2 ? '.' : 'A';
    text[VICHRELKA_NAME_TEXT_LIMIT - 2] = IN_LABEL[i % 36];
    return text;
}

/* Cases */

struct input {
    const char *what;
    struct bytes bytes, second;
    uint32_t number;
    uint64_t want;
};

static uint64_t accepted(uint32_t value)
{
    return (uint64_t)value << 32;
}

static uint8_t table[VICHRELKA_TABLE_LEN], area[VICHRELKA_TABLE_LEN], out[VICHRELKA_WRITTEN_LIMIT];
static uint8_t reverse[VICHRELKA_REVERSE_LEN], reverse_area[VICHRELKA_REVERSE_LEN];

enum { BLOCKS = 10000 };
static struct {
    size_t len;
    uint8_t at[BLOCKS * VICHRELKA_BLOCK_LEN];
} book;

static const uint8_t DHCID[VICHRELKA_DHCID_LEN] = {0, 1, 1, 7}, ADDRESS[16] = {0x20, 1, 0xd, 0xb8};

static uint64_t name_call(const struct input *in)
{
    return vichrelka_name(in->number, VICHRELKA_CLIENT_FIRST, in->bytes.at, in->bytes.len, in->second.at, in->second.len);
}

static uint64_t dhcid_call(const struct input *in)
{
    return vichrelka_dhcid(in->number, VICHRELKA_CLIENT_FIRST, in->bytes.at, in->bytes.len, in->second.at, in->second.len, out, sizeof out);
}

static uint64_t from_text_call(const struct input *in)
{
    return vichrelka_name_from_text(in->bytes.at, in->bytes.len, out, sizeof out);
}

static uint64_t to_text_call(const struct input *in)
{
    return vichrelka_name_to_text(in->bytes.at, in->bytes.len, out, sizeof out);
}

static uint64_t check_call(const struct input *in)
{
    return vichrelka_listing_check(in->bytes.at, in->bytes.len);
}

static uint64_t load_call(const struct input *in)
{
    return vichrelka_table_load(area, sizeof area, in->bytes.at, in->bytes.len);
}

/* the table is that of the listing `second`, and `bytes` is a name */
static void set_table(const struct input *in)
{
    if (vichrelka_table_load(table, sizeof table, in->second.at, in->second.len) != 0)
        stop(in->what, "its table is not loaded");
}

static uint64_t add_call(const struct input *in)
{
    return vichrelka_table_add(table, sizeof table, in->bytes.at, in->bytes.len, DHCID, sizeof DHCID, VICHRELKA_IPV6, ADDRESS, sizeof ADDRESS, VICHRELKA_LATEST_WINS);
}

/* refused, so that the table stays: the address is another one, which is tested last */
static uint64_t remove_call(const struct input *in)
{
    return vichrelka_table_remove(table, sizeof table, in->bytes.at, in->bytes.len, DHCID, sizeof DHCID, VICHRELKA_IPV4, ADDRESS, 4);
}

/* accepted: the AAAA is the only address, so the name goes; the table is put back first, as for a clear */
static uint64_t remove_name_call(const struct input *in)
{
    memcpy(table, area, sizeof table);
    return vichrelka_table_remove(table, sizeof table, in->bytes.at, in->bytes.len, DHCID, sizeof DHCID, VICHRELKA_IPV6, ADDRESS, sizeof ADDRESS);
}

/* the table is put back first, which takes less than a hundredth of the time */
static uint64_t clear_call(const struct input *in)
{
    memcpy(table, area, sizeof table);
    return vichrelka_table_clear(table, sizeof table, in->bytes.at, in->bytes.len);
}

static uint64_t find_call(const struct input *in)
{
    return vichrelka_table_find(table, sizeof table, in->bytes.at, in->bytes.len);
}

static uint64_t count_call(const struct input *in)
{
    (void)in;
    return vichrelka_table_count(table, sizeof table);
}

static uint64_t write_call(const struct input *in)
{
    (void)in;
    return vichrelka_table_write(table, sizeof table, out, sizeof out);
}

static uint64_t block_call(const struct input *in)
{
    return vichrelka_book_block(table, sizeof table, in->bytes.at, in->bytes.len, 0, out, sizeof out);
}

/* the book is put together before */
static uint64_t replay_call(const struct input *in)
{
    (void)in;
    return vichrelka_book_replay(area, sizeof area, book.at, book.len);
}

static uint64_t tidy_call(const struct input *in)
{
    (void)in;
    return vichrelka_book_tidy(book.at, book.len, out, sizeof out);
}

static uint64_t sound_call(const struct input *in)
{
    (void)in;
    return vichrelka_book_sound(book.at, book.len);
}

static uint64_t ptr_call(const struct input *in)
{
    return vichrelka_ptr_name(in->number, in->bytes.at, in->bytes.len, out, sizeof out);
}

/* `bytes` is a name, and `second` an address */
static uint64_t lease_call(const struct input *in)
{
    return vichrelka_lease(table, sizeof table, reverse, sizeof reverse, in->bytes.at, in->bytes.len, DHCID, sizeof DHCID, in->number, in->second.at,
                           in->second.len, VICHRELKA_LATEST_WINS);
}

static uint64_t end_call(const struct input *in)
{
    return vichrelka_lease_end(table, sizeof table, reverse, sizeof reverse, in->bytes.at, in->bytes.len, DHCID, sizeof DHCID, in->number, in->second.at,
                               in->second.len);
}

/* `bytes` is a name, and `second` its zone; the address is an AAAA */
#define MESSAGE_CALL(which)                                                                                                                          \
    static uint64_t which##_call(const struct input *in)                                                                                             \
    {                                                                                                                                                \
        return vichrelka_update_##which(1, in->second.at, in->second.len, in->bytes.at, in->bytes.len, DHCID, sizeof DHCID, VICHRELKA_IPV6, ADDRESS, \
                                        sizeof ADDRESS, out, sizeof out);                                                                            \
    }

MESSAGE_CALL(add_first)
MESSAGE_CALL(add_second)
MESSAGE_CALL(remove_first)

static uint64_t remove_second_call(const struct input *in)
{
    return vichrelka_update_remove_second(1, in->second.at, in->second.len, in->bytes.at, in->bytes.len, DHCID, sizeof DHCID, out, sizeof out);
}

static uint64_t answer_call(const struct input *in)
{
    return vichrelka_update_answer(1, in->bytes.at, in->bytes.len);
}

/* both sides are put back first, which takes about a hundredth of the time */
static void put_back(void)
{
    memcpy(table, area, sizeof table);
    memcpy(reverse, reverse_area, sizeof reverse);
}

static uint64_t new_lease_call(const struct input *in)
{
    put_back();
    return lease_call(in);
}

static uint64_t whole_end_call(const struct input *in)
{
    put_back();
    return end_call(in);
}

/* Messages */

static const uint8_t COOKIE[] = {0x63, 0x82, 0x53, 0x63, 53, 1, 3};

static void begin4(struct input *in, const char *what)
{
    memset(in, 0, sizeof *in);
    in->what = what;
    in->number = VICHRELKA_IPV4;
    in->bytes.len = 236;
    memcpy(in->bytes.at, "\1\1\6", 3);
    put(&in->bytes, COOKIE, sizeof COOKIE);
}

/* an identifier of 255 bytes, and a name of as many as an option 81 has room for, 252 */
static void put_longest4(struct input *in)
{
    uint8_t name[VICHRELKA_NAME_LIMIT] = {0};
    put_byte(&in->bytes, 61);
    put_byte(&in->bytes, 255);
    for (int i = 0; i < 255; i++)
        put_byte(&in->bytes, 7);
    put_byte(&in->bytes, 81);
    put_byte(&in->bytes, 254);
    put(&in->bytes, "\4\0\0", 3);
    for (int i = 0; i < 250; i += 2) {
        name[i] = 1;
        name[i + 1] = 'A';
    }
    put(&in->bytes, name, 251);
}

/* the options given, as often as they fit, and End */
static void end4(struct input *in, const char *option, size_t len)
{
    fill_up(&in->bytes, VICHRELKA_MESSAGE_LIMIT - 1, option, len);
    put_byte(&in->bytes, 255);
}

/* a DHCPv6 Request with a DUID of 130 bytes, a name of 255 and options of no bytes; in so many relays, with options of no bytes */
static void make6(struct input *in, const char *what, int relays)
{
    static struct bytes inner;
    memset(in, 0, sizeof *in);
    in->what = what;
    in->number = VICHRELKA_IPV6;
    put(&in->bytes, "\3abc\0\1\0\202", 8);
    for (int i = 0; i < 130; i++)
        put_byte(&in->bytes, 9);
    put(&in->bytes, "\0\047\1\0\0", 5);
    for (int i = 0; i < 127; i++)
        put(&in->bytes, "\1A", 2);
    put_byte(&in->bytes, 0);
    size_t room = VICHRELKA_MESSAGE_LIMIT - (size_t)relays * 38;
    fill_up(&in->bytes, relays ? in->bytes.len + (room - in->bytes.len) / (size_t)(relays + 1) : room, "\0\130\0\0", 4);
    for (int k = relays; k > 0; k--) {
        inner = in->bytes;
        in->bytes.len = 0;
        put_byte(&in->bytes, 12);
        for (int i = 0; i < 33; i++)
            put_byte(&in->bytes, 0);
        size_t left = VICHRELKA_MESSAGE_LIMIT - (size_t)(k - 1) * 38 - inner.len - 38;
        fill_up(&in->bytes, 34 + left / (size_t)k, "\0\130\0\0", 4);
        put(&in->bytes, "\0\11", 2);
        put_byte(&in->bytes, (unsigned)(inner.len >> 8));
        put_byte(&in->bytes, (unsigned)(inner.len & 255));
        put(&in->bytes, inner.at, inner.len);
    }
}

/* Runs */

typedef uint64_t call_fn(const struct input *);

static struct best {
    const char *what;
    double seconds;
} slowest;

static double time_of(call_fn *call, const struct input *in)
{
    double best = 1e9, began = cpu_seconds();
    long passes = 1;
    for (int round = 0; round < ROUNDS_LEAST || (round < ROUNDS && cpu_seconds() - began < CASE_SECONDS); round++) {
        double from = cpu_seconds();
        for (long k = 0; k < passes; k++)
            if (call(in) != in->want)
                stop(in->what, "another answer than is due");
        double took = cpu_seconds() - from;
        if (took / (double)passes < best)
            best = took / (double)passes;
        if (took < ROUND_SECONDS && passes < 1 << 20)
            passes *= 4;
    }
    return best;
}

static bool verbose;

static void try_for(double seconds, const char *what)
{
    if (verbose)
        printf("    %10.3f us  %s\n", seconds * 1e6, what);
    if (seconds > slowest.seconds)
        slowest = (struct best){what, seconds};
}

static void try(call_fn *call, struct input *in, uint64_t want)
{
    in->want = want;
    try_for(time_of(call, in), in->what);
}

static void say(const char *call)
{
    printf("%-30s %10.3f us  %s\n", call, slowest.seconds * 1e6, slowest.what);
    fflush(stdout);
    slowest = (struct best){0};
}

/* The answers of the library to what is sound are its own: that it was accepted is what is checked. */
static void try_accepted(call_fn *call, struct input *in)
{
    uint64_t answer = call(in);
    if (vichrelka_refusal(answer) != 0)
        stop(in->what, "refused");
    try(call, in, answer);
}

static struct input in;

static void messages(const char *what, call_fn *call)
{
    begin4(&in, "DHCPv4, 2,048 bytes, nothing but padding and a name of 251 bytes");
    put_longest4(&in);
    end4(&in, "\0", 1);
    try_accepted(call, &in);
    begin4(&in, "DHCPv4, 2,048 bytes, as many options of no bytes as fit, and a name of 251 bytes");
    put_longest4(&in);
    end4(&in, "\200\0", 2);
    try_accepted(call, &in);
    begin4(&in, "DHCPv4, 2,048 bytes, as many options of one byte as fit, and a name of 251 bytes");
    put_longest4(&in);
    end4(&in, "\200\1\1", 3);
    try_accepted(call, &in);
    make6(&in, "DHCPv6, 2,048 bytes, as many options of no bytes as fit, and a name of 255 bytes", 0);
    try_accepted(call, &in);
    make6(&in, "DHCPv6 in four relays, 2,048 bytes, the same on each level", 4);
    try_accepted(call, &in);
    make6(&in, "DHCPv6 in eight relays, 2,048 bytes, the same on each level", 8);
    try_accepted(call, &in);
    say(what);
}

static void names(const char *what, call_fn *call, bool is_wire)
{
    static const struct {
        const char *what;
        const char *(*text)(int);
    } KINDS[] = {
        {"a name of 255 bytes in wire form, labels of 63", long_labels},
        {"a name of 255 bytes in wire form, 127 labels", one_byte_labels},
        {"a name of 254 bytes in wire form, 125 labels of one byte", short_labels},
    };
    for (size_t k = 0; k < sizeof KINDS / sizeof KINDS[0]; k++) {
        const char *text = KINDS[k].text(0);
        memset(&in, 0, sizeof in);
        in.what = KINDS[k].what;
        if (is_wire)
            in.bytes.len = wire(text, in.bytes.at);
        else
            put_text(&in.bytes, text);
        try_accepted(call, &in);
    }
    say(what);
}

/* Listings */

static void begin_listing(const char *what)
{
    memset(&in, 0, sizeof in);
    in.what = what;
}

static void repeated(const char *what, const char *entry)
{
    begin_listing(what);
    fill_up(&in.bytes, VICHRELKA_LISTING_LIMIT, entry, strlen(entry));
    try_accepted(check_call, &in);
}

static void checks(void)
{
    char line[1024], *end;
    repeated("65,536 line ends", "\n");
    repeated("65,536 blanks", " ");
    repeated("comments of one byte", ";\n");
    repeated("pairs of parentheses", "()");
    repeated("lines of two parentheses", "()\n");
    repeated("A records with an owner of one letter", "a. A 1.2.3.4\n");
    repeated("AAAA records with an owner of one letter and groups of one digit", "a. AAAA 1:2:3:4:5:6:7:8\n");
    repeated("AAAA records with an owner of one letter and groups of four digits", "a. AAAA 1111:2222:3333:4444:5555:6666:7777:8888\n");
    repeated("DHCIDs in one word", "a. DHCID AAABxLmlskllE0MVjd57zHcWmEH3pCQ6VytcKD//7es/deY=\n");
    repeated("DHCIDs in 48 words of one character",
             "a. DHCID A A A B x L m l s k l l E 0 M V j d 5 7 z H c W m E H 3 p C Q 6 V y t c K D / / 7 e s / d e Y =\n");
    end = line + sprintf(line, "a. DHCID \\# 35 00 00 01");
    for (int i = 0; i < 32; i++)
        end += sprintf(end, " aB");
    sprintf(end, "\n");
    repeated("DHCIDs in hexadecimal, 35 words of two digits", line);
    snprintf(line, sizeof line, "%s A 1.2.3.4\n", one_byte_labels(0));
    repeated("A records with an owner of 127 labels", line);
    snprintf(line, sizeof line, "%s A 1.2.3.4\n", long_labels(0));
    repeated("A records with an owner of 254 characters, labels of 63", line);
    repeated("A records in parentheses, a line for each word", "a. (\nA\n1.2.3.4\n)\n");
    say("vichrelka_listing_check");
}

/* names that begin alike, each with one A, until the listing is full: refused with 32, as no table has room for them */
static void crowd(const char *what, int labels, const char *last)
{
    char line[VICHRELKA_NAME_TEXT_LIMIT + 32];
    begin_listing(what);
    for (int i = 0; i < LABEL_BYTES * LABEL_BYTES; i++) {
        alike(line, labels, last, i);
        strcat(line, " A 1.2.3.4\n");
        if (!put_text(&in.bytes, line))
            break;
    }
    try(load_call, &in, VICHRELKA_REFUSED_TABLE_FULL);
}

static void short_crowd(void)
{
    begin_listing("4,470 names of one to three letters, a record each (32)");
    for (int i = 0;; i++) {
        char line[32], label[4];
        int at = 3, left = i;
        label[at] = 0;
        do
            label[--at] = IN_LABEL[left % LABEL_BYTES];
        while ((left = left / LABEL_BYTES - 1) >= 0);
        sprintf(line, "%s. A 1.2.3.4\n", label + at);
        if (!put_text(&in.bytes, line))
            break;
    }
    try(load_call, &in, VICHRELKA_REFUSED_TABLE_FULL);
}

static const char *const RECORDS[] = {" A 1.2.3.4\n", " AAAA 2001:0db8:0000:0000:0000:0000:0000:0000\n",
                                        " DHCID AAEBBwAAAAAAAAAAAAAAAAAAAAAAAAAAAAAAAAAAAAAAAAA=\n"};

/* a full table as a listing: 64 names with so many records */
static void full_table(struct bytes *listing, const char *(*text)(int), int from, int records)
{
    listing->len = 0;
    for (int i = 0; i < VICHRELKA_TABLE_NAMES; i++)
        for (int k = from; k < from + records; k++) {
            put_text(listing, text(i));
            put_text(listing, RECORDS[k]);
        }
}

static void loads(void)
{
    short_crowd();
    crowd("1,424 names with a first label of 34 letters that differ in the last two (32)", 0, "aaaaaaaaaaaaaaaaaaaaaaaaaaaaaaaa");
    crowd("1,424 names of 16 labels of one letter, and one of two in which they differ (32)", 16, "");
    crowd("names of 8 labels of one letter, and one of 18 that differ in the last two (32)", 8, "aaaaaaaaaaaaaaaa");
    crowd("names of 24 labels of one letter, and one of two in which they differ (32)", 24, "");
    begin_listing("64 names of 255 bytes that differ in the last two, three records each");
    full_table(&in.bytes, long_labels, 0, 3);
    try(load_call, &in, 0);
    begin_listing("64 names of 125 labels and one in which they differ, three records each");
    full_table(&in.bytes, short_labels, 0, 3);
    try(load_call, &in, 0);
    say("vichrelka_table_load");
}

/* Steps on a full table: on its last name, which a search comes to last; a clear on its first, behind which all others move up; a remove on both */

static void begin_step(const char *what, const char *(*text)(int), int records, int index)
{
    memset(&in, 0, sizeof in);
    in.what = what;
    full_table(&in.second, text, 3 - records, records);
    in.bytes.len = wire(text(index), in.bytes.at);
    set_table(&in);
    memcpy(area, table, sizeof area);
}

static void steps(const char *what, call_fn *call, uint64_t want, int records)
{
    begin_step("64 names of 255 bytes that differ in the last two", long_labels, records, VICHRELKA_TABLE_NAMES - 1);
    try(call, &in, want);
    begin_step("64 names of 254 bytes, 125 labels and one in which they differ", short_labels, records, VICHRELKA_TABLE_NAMES - 1);
    try(call, &in, want);
    say(what);
}

static void removes(void)
{
    static const struct {
        const char *refused, *last, *first;
        const char *(*text)(int);
    } KINDS[] = {
        {"64 names of 255 bytes that differ in the last two; the last one has another address (34)",
         "64 names of 255 bytes that differ in the last two; the last one goes with its only address",
         "64 names of 255 bytes that differ in the last two; the first goes with its only address", long_labels},
        {"64 names of 254 bytes, 125 labels and one in which they differ; the last one has another address (34)",
         "64 names of 254 bytes, 125 labels and one in which they differ; the last one goes with its only address",
         "64 names of 254 bytes, 125 labels and one in which they differ; the first goes with its only address", short_labels},
    };
    for (size_t k = 0; k < sizeof KINDS / sizeof KINDS[0]; k++) {
        begin_step(KINDS[k].refused, KINDS[k].text, 2, VICHRELKA_TABLE_NAMES - 1);
        try(remove_call, &in, VICHRELKA_REFUSED_ADDRESS_DIFFERS);
        begin_step(KINDS[k].last, KINDS[k].text, 2, VICHRELKA_TABLE_NAMES - 1);
        try(remove_name_call, &in, 0);
        begin_step(KINDS[k].first, KINDS[k].text, 2, 0);
        try(remove_name_call, &in, 0);
    }
    say("vichrelka_table_remove");
}

static void clears(void)
{
    begin_step("64 names of 255 bytes that differ in the last two; the first is cleared", long_labels, 2, 0);
    try(clear_call, &in, 0);
    begin_step("64 names of 254 bytes, 125 labels and one in which they differ; the first is cleared", short_labels, 2, 0);
    try(clear_call, &in, 0);
    say("vichrelka_table_clear");
}

static void writes(void)
{
    begin_step("64 names of 255 bytes that differ in the last two, three records each", long_labels, 3, 0);
    try_accepted(write_call, &in);
    begin_step("64 names of 254 bytes, 125 labels and one in which they differ, three records each", short_labels, 3, 0);
    try_accepted(write_call, &in);
    say("vichrelka_table_write");
}

/* Books */

static void begin_book(const char *what)
{
    memset(&in, 0, sizeof in);
    in.what = what;
    book.len = 0;
}

/* the block of a name, from a table that has it alone or has none; it stands with an AAAA and a DHCID */
static void put_block(const char *text, bool stands)
{
    uint32_t number = (uint32_t)(book.len / VICHRELKA_BLOCK_LEN);
    in.bytes.len = wire(text, in.bytes.at);
    memset(table, 0, sizeof table);
    if (stands && add_call(&in) != 0)
        stop(in.what, "its name is not added");
    uint64_t answer = vichrelka_book_block(table, sizeof table, in.bytes.at, in.bytes.len, number, book.at + book.len, sizeof book.at - book.len);
    if (vichrelka_refusal(answer) != 0)
        stop(in.what, "its block is not written");
    book.len += VICHRELKA_BLOCK_LEN;
}

/* 64 names, of which the last is then said again and again: a search comes to it last */
static void last_again(const char *what, const char *(*text)(int))
{
    begin_book(what);
    for (int i = 0; i < BLOCKS; i++)
        put_block(text(i < VICHRELKA_TABLE_NAMES ? i : VICHRELKA_TABLE_NAMES - 1), true);
}

/* 64 names, of which the last then goes and returns, again and again, and stands at the end */
static void last_returns(const char *what, const char *(*text)(int))
{
    begin_book(what);
    for (int i = 0; i < BLOCKS; i++)
        put_block(text(i < VICHRELKA_TABLE_NAMES ? i : VICHRELKA_TABLE_NAMES - 1), i < VICHRELKA_TABLE_NAMES || i % 2 != 0);
}

/* 64 names, of which the first then goes, behind which all others move up, and returns as the last; and so on with each */
static void first_returns(const char *what, const char *(*text)(int))
{
    begin_book(what);
    for (int i = 0; i < VICHRELKA_TABLE_NAMES; i++)
        put_block(text(i), true);
    for (int i = VICHRELKA_TABLE_NAMES; i < BLOCKS; i++)
        put_block(text((i - VICHRELKA_TABLE_NAMES) / 2 % VICHRELKA_TABLE_NAMES), i % 2 != 0);
}

/* 5,000 names that come and then go in the same order: too many for a table (40), and each that goes was said 5,000 blocks before */
static void come_and_go(const char *what, const char *(*text)(int))
{
    begin_book(what);
    for (int i = 0; i < BLOCKS; i++)
        put_block(text(i % (BLOCKS / 2)), i < BLOCKS / 2);
}

static void blocks(void)
{
    static const uint32_t WRITTEN = VICHRELKA_BLOCK_LEN;
    begin_step("64 names of 255 bytes that differ in the last two; the last one", long_labels, 2, VICHRELKA_TABLE_NAMES - 1);
    try(block_call, &in, accepted(WRITTEN));
    begin_step("64 names of 255 bytes that differ in the last two; one that is not there", long_labels, 2, VICHRELKA_TABLE_NAMES);
    try(block_call, &in, accepted(WRITTEN));
    begin_step("64 names of 254 bytes, 125 labels and one in which they differ; the last one", short_labels, 2, VICHRELKA_TABLE_NAMES - 1);
    try(block_call, &in, accepted(WRITTEN));
    begin_step("64 names of 254 bytes, 125 labels and one in which they differ; one that is not there", short_labels, 2, VICHRELKA_TABLE_NAMES);
    try(block_call, &in, accepted(WRITTEN));
    say("vichrelka_book_block");
}

static void full_books(call_fn *call, uint64_t want)
{
    last_again("10,000 blocks, 64 names of 255 bytes that differ in the last two; the last one over and over", long_labels);
    try(call, &in, want);
    last_again("10,000 blocks, 64 names of 125 labels and one in which they differ; the last one over and over", short_labels);
    try(call, &in, want);
    last_returns("10,000 blocks, 64 names of 255 bytes that differ in the last two; the last one goes and returns", long_labels);
    try(call, &in, want);
    last_returns("10,000 blocks, 64 names of 125 labels and one in which they differ; the last one goes and returns", short_labels);
    try(call, &in, want);
    first_returns("10,000 blocks, 64 names of 125 labels and one in which they differ; the first goes and returns", short_labels);
    try(call, &in, want);
}

static void crowded_books(call_fn *call)
{
    come_and_go("10,000 blocks, 5,000 names of 255 bytes that differ in the last three; each goes 5,000 blocks later (40)", long_labels);
    try(call, &in, VICHRELKA_REFUSED_TABLE_NOT_SOUND);
    come_and_go("10,000 blocks, 5,000 names of 124 labels and one in which they differ; each goes 5,000 blocks later (40)", many_labels);
    try(call, &in, VICHRELKA_REFUSED_TABLE_NOT_SOUND);
}

/* The count of sound blocks ends before the first name too many. */
static void books(void)
{
    full_books(replay_call, 0);
    crowded_books(replay_call);
    say("vichrelka_book_replay");
    full_books(tidy_call, accepted(VICHRELKA_TIDIED_LIMIT));
    crowded_books(tidy_call);
    say("vichrelka_book_tidy");
    full_books(sound_call, accepted(BLOCKS));
    say("vichrelka_book_sound");
}

/* Leases */

static void ptrs(void)
{
    static const struct {
        const char *what, *bytes;
        uint32_t family;
        size_t len;
    } KINDS[] = {
        {"an IPv4 address whose numbers have three digits", "\xff\xff\xff\xff", VICHRELKA_IPV4, 4},
        {"an IPv4 address whose numbers have one digit", "\1\2\3\4", VICHRELKA_IPV4, 4},
        {"an IPv4 address whose numbers have one, three, two and three digits", "\1\377\20\377", VICHRELKA_IPV4, 4},
        {"an IPv6 address", "\x20\1\xd\xb8\x9a\xbc\xde\xf0\1\2\3\4\x5a\xa5\x5a\xa5", VICHRELKA_IPV6, 16},
    };
    for (size_t k = 0; k < sizeof KINDS / sizeof KINDS[0]; k++) {
        memset(&in, 0, sizeof in);
        in.what = KINDS[k].what;
        in.number = KINDS[k].family;
        put(&in.bytes, KINDS[k].bytes, KINDS[k].len);
        try_accepted(ptr_call, &in);
    }
    say("vichrelka_ptr_name");
}

/* the lease of a name with an address, of those that differ in the last byte */
static void ask_lease(const char *(*text)(int), int index, uint32_t family, int address)
{
    in.bytes.len = wire(text(index), in.bytes.at);
    in.number = family;
    in.second.len = 0;
    put(&in.second, ADDRESS, (family == VICHRELKA_IPV6 ? 16 : 4) - 1);
    put_byte(&in.second, (unsigned)address);
}

/* Both sides after so many leases: 64 names, which get another address from the 65th lease on and stay behind the former one. Each lease is that of its
   number. */
static void begin_sides(const char *what, const char *(*text)(int), uint32_t family, int leases)
{
    memset(&in, 0, sizeof in);
    in.what = what;
    memset(table, 0, sizeof table);
    memset(reverse, 0, sizeof reverse);
    for (int i = 0; i < leases; i++) {
        ask_lease(text, i % VICHRELKA_TABLE_NAMES, family, i);
        if (vichrelka_refusal(lease_call(&in)) != 0)
            stop(what, "a lease is refused");
    }
    memcpy(area, table, sizeof area);
    memcpy(reverse_area, reverse, sizeof reverse_area);
}

/* Behind each address is this name from now on */
static void all_behind(const char *text)
{
    uint8_t name[VICHRELKA_NAME_LIMIT] = {0};
    size_t len = wire(text, name);
    for (uint8_t *slot = reverse; slot < reverse + sizeof reverse; slot += VICHRELKA_REVERSE_SLOT_LEN) {
        slot[VICHRELKA_REVERSE_NAME_LEN] = (uint8_t)len;
        memcpy(slot + VICHRELKA_REVERSE_NAME, name, sizeof name);
    }
    memcpy(reverse_area, reverse, sizeof reverse_area);
}

enum { NAMES = VICHRELKA_TABLE_NAMES, ADDRESSES = VICHRELKA_REVERSE_NAMES };

/* the names of short_labels */
#define ALIKE "64 names of 254 bytes, 125 labels and one in which they differ, "

/* of a name that is the client's already, and of one that comes; with no room behind (46) */
static void leases(void)
{
    begin_sides("64 names of 255 bytes that differ in the last two, 128 AAAA that differ in the last byte; the last one again", long_labels, VICHRELKA_IPV6,
                ADDRESSES);
    try(lease_call, &in, accepted(1));
    begin_sides(ALIKE "128 AAAA that differ in the last byte; the last one again", short_labels, VICHRELKA_IPV6, ADDRESSES);
    try(lease_call, &in, accepted(1));
    begin_sides(ALIKE "128 A that differ in the last byte; the last one again", short_labels, VICHRELKA_IPV4, ADDRESSES);
    try(lease_call, &in, accepted(1));
    begin_sides(ALIKE "128 AAAA that differ in the last byte; the first one again", short_labels, VICHRELKA_IPV6, ADDRESSES);
    ask_lease(short_labels, 0, VICHRELKA_IPV6, NAMES);
    try(lease_call, &in, accepted(1));
    begin_sides(ALIKE "127 AAAA that differ in the last byte, and the last one comes", short_labels, VICHRELKA_IPV6, ADDRESSES - 1);
    ask_lease(short_labels, NAMES - 1, VICHRELKA_IPV6, ADDRESSES - 1);
    try(new_lease_call, &in, accepted(1));
    begin_sides(ALIKE "128 AAAA that differ in the last byte, and another one that has no room (46)", short_labels, VICHRELKA_IPV6, ADDRESSES);
    ask_lease(short_labels, NAMES - 1, VICHRELKA_IPV6, ADDRESSES);
    try(lease_call, &in, VICHRELKA_REFUSED_REVERSE_FULL);
    begin_sides(ALIKE "a name of 127 labels behind each of 128 AAAA; the last one again", short_labels, VICHRELKA_IPV6, ADDRESSES);
    all_behind(one_byte_labels(0));
    try(new_lease_call, &in, accepted(1));
    say("vichrelka_lease");
}

/* of the last lease, and of the first address that a client has not left: 63 slots are behind it, and 63 behind the name */
static void ends(void)
{
    static const struct {
        const char *last, *first, *refused;
        const char *(*text)(int);
    } KINDS[] = {
        {"64 names of 255 bytes that differ in the last two, 128 AAAA that differ in the last byte; the last one ends",
         "64 names of 255 bytes that differ in the last two, 128 AAAA that differ in the last byte; the first one ends",
         "64 names of 255 bytes that differ in the last two, 128 AAAA that differ in the last byte; the last one has another address (34)", long_labels},
        {ALIKE "128 AAAA that differ in the last byte; the last one ends", ALIKE "128 AAAA that differ in the last byte; the first one ends",
         ALIKE "128 AAAA that differ in the last byte; the last one has another address (34)", short_labels},
    };
    for (size_t k = 0; k < sizeof KINDS / sizeof KINDS[0]; k++) {
        begin_sides(KINDS[k].last, KINDS[k].text, VICHRELKA_IPV6, ADDRESSES);
        try(whole_end_call, &in, 0);
        begin_sides(KINDS[k].first, KINDS[k].text, VICHRELKA_IPV6, ADDRESSES);
        ask_lease(KINDS[k].text, 0, VICHRELKA_IPV6, NAMES);
        try(whole_end_call, &in, 0);
        begin_sides(KINDS[k].refused, KINDS[k].text, VICHRELKA_IPV6, ADDRESSES);
        ask_lease(KINDS[k].text, NAMES - 1, VICHRELKA_IPV6, 0);
        try(end_call, &in, VICHRELKA_REFUSED_ADDRESS_DIFFERS);
    }
    begin_sides(ALIKE "a name of 127 labels behind each of 128 AAAA; the first one ends", short_labels, VICHRELKA_IPV6, ADDRESSES);
    all_behind(one_byte_labels(0));
    ask_lease(short_labels, 0, VICHRELKA_IPV6, NAMES);
    try(whole_end_call, &in, 0);
    say("vichrelka_lease_end");
}

/* Messages for a name server */

/* zones of a name: so many of its last bytes, from a label's length on */
static void zones(const char *whole, const char *(*text)(int), size_t last)
{
    memset(&in, 0, sizeof in);
    in.what = whole;
    in.bytes.len = wire(text(0), in.bytes.at);
    put(&in.second, in.bytes.at + in.bytes.len - last, last);
}

static void updates(const char *what, call_fn *call)
{
    zones("a name of 255 bytes with labels of 63, and its last label as the zone", long_labels, 63);
    try_accepted(call, &in);
    zones("a name of 255 bytes with labels of 63, and the same as the zone", long_labels, 255);
    try_accepted(call, &in);
    zones("a name of 255 bytes with 127 labels, and its last label as the zone", one_byte_labels, 3);
    try_accepted(call, &in);
    zones("a name of 255 bytes with 127 labels, and the same as the zone", one_byte_labels, 255);
    try_accepted(call, &in);
    zones("a name of 255 bytes with 127 labels, and all but the first as the zone", one_byte_labels, 253);
    try_accepted(call, &in);
    in.what = "the same, and the last letter of the zone is another one (9)";
    in.second.at[in.second.len - 2] = '_';
    try(call, &in, VICHRELKA_REFUSED_NO_PROPER_NAME);
    say(what);
}

static void answers(void)
{
    memset(&in, 0, sizeof in);
    in.what = "an answer of 12 bytes with the code 8";
    put(&in.bytes, "\0\1\xa8\x08\0\1\0\0\0\0\0\0", 12);
    try(answer_call, &in, accepted(VICHRELKA_CODE_NO_SUCH_SET));
    in.what = "the same with the code 9 (48)";
    in.bytes.at[3] = 9;
    try(answer_call, &in, VICHRELKA_REFUSED_ANOTHER_CODE);
    say("vichrelka_update_answer");
}

int main(int argc, char **argv)
{
    verbose = argc > 1 && strcmp(argv[1], "-v") == 0;
    messages("vichrelka_name", name_call);
    messages("vichrelka_dhcid", dhcid_call);
    names("vichrelka_name_from_text", from_text_call, false);
    names("vichrelka_name_to_text", to_text_call, true);
    checks();
    steps("vichrelka_table_add", add_call, accepted(1), 2);
    removes();
    clears();
    steps("vichrelka_table_find", find_call, accepted(VICHRELKA_TABLE_NAMES - 1), 2);
    steps("vichrelka_table_count", count_call, accepted(VICHRELKA_TABLE_NAMES), 2);
    writes();
    loads();
    blocks();
    books();
    ptrs();
    leases();
    ends();
    updates("vichrelka_update_add_first", add_first_call);
    updates("vichrelka_update_add_second", add_second_call);
    updates("vichrelka_update_remove_first", remove_first_call);
    updates("vichrelka_update_remove_second", remove_second_call);
    answers();
    return 0;
}
