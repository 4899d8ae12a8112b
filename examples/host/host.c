/*
 * A small gateway over the calls of vichrelka.h, with files in the place of sockets: who gets which name.
 *
 *     host [FILE]      commands from FILE, or from standard input, a line each; README.md beside this file tells them
 *
 * It prints a line for each command: what was asked, the name, the answer or the refusal.
 * Exit status: 0 all was accepted, 1 something was refused or cut off, or the power was cut, 2 trouble: a command that is none, a file that cannot be
 * read or written.
 */
#define _POSIX_C_SOURCE 200809L /* fileno, fsync, open and truncate: a book has to be on the disk, and C has no call for that */

#include <vichrelka.h>

#include <ctype.h>
#include <errno.h>
#include <fcntl.h>
#include <stdio.h>
#include <string.h>
#include <unistd.h>

enum status { ACCEPTED, REFUSED, TROUBLE };

static const char NOT_WRITTEN[] = "not written: look whether the folder is there, may be written and has room";
static const char NO_BOOK[] = "no book is kept: say `book FILE` to go on from one, or `new FILE` to begin one";
static const char NO_MESSAGE[] = "no message: look whether the file is there, and has hexadecimal digits in pairs and nothing else";
static const char NO_TAKEOVER[] = "NOT DONE: a takeover has no message for a name server; with a zone it has to be `set first-wins`";
static const char NOTHING_WAITS[] = "no message waits for an answer: after `zone NAME FILE` each `request` and `release` that the table accepts writes one";

enum {
    HAS_A = 1,                               /* of a slot's flags, and the two others */
    HAS_AAAA = 2,
    HAS_DHCID = 4,
    LINE_LIMIT = 512,                        /* a command with its end */
    PATH_ROOM = LINE_LIMIT + 16,             /* a file's name with an ending behind it */
    BOOK_LIMIT = 4 * VICHRELKA_TIDIED_LIMIT, /* the memory for a book, which is lent whole */
    TIDY_BELOW = VICHRELKA_TIDIED_LIMIT,     /* with less room than that the book should be tidied */
    UDP_LIMIT = 512                          /* a message for a name server that has more bytes goes by TCP */
};

/* Beside the book's FILE: the reverse side; an ended lease that is not done yet. */
static const char REVERSE[] = ".reverse", ENDED[] = ".ended";

/* A lease: the client with this DHCID has this name and this address. Bytes and nothing else: an ended one is kept in a file as it is here. */
struct lease {
    uint8_t family, address_len, address[16], name_len, name[VICHRELKA_NAME_LIMIT], dhcid[VICHRELKA_DHCID_LEN];
};

/* The messages for a name server: two for a lease, which is an add there, and two for an ended one, a remove. */
enum message { NOTHING, ADD_FIRST, ADD_SECOND, REMOVE_FIRST, REMOVE_SECOND };

/* Where the power fails in a lease or an ended one, to try what is left: README.md tells the places. */
enum place { NOWHERE, BEFORE, BETWEEN, AFTER, IN_BLOCK, IN_REVERSE };

struct gateway {
    uint8_t table[VICHRELKA_TABLE_LEN];     /* all zeros is the empty table */
    uint8_t reverse[VICHRELKA_REVERSE_LEN]; /* all zeros is the empty reverse side */
    uint8_t book[BOOK_LIMIT];               /* the book that is kept, those of its blocks included that are not in the file yet */
    size_t book_len, stored_len;            /* its bytes, and how many of them are in the file */
    int is_reverse_changed;                 /* the reverse side is not yet in the file beside the book */
    int is_reverse_first;                   /* the last step was an ended lease: it stores the reverse side before its block */
    int has_ended;                          /* an ended lease is kept beside the book until both are stored */
    char path[LINE_LIMIT];                  /* the book's file; empty as long as no book is kept */
    uint8_t site[VICHRELKA_NAME_LIMIT];     /* the name for a client without a proper one, in wire form */
    size_t site_len;                        /* 0 as long as none is set: the library then answers 9 where it would be needed */
    uint32_t setting, policy;
    uint8_t zone[VICHRELKA_NAME_LIMIT];     /* the name server's zone, in wire form */
    size_t zone_len;                        /* 0 as long as none is set: no messages are written then */
    char outbox[LINE_LIMIT];                /* the messages' files, each with its number behind this */
    enum message waiting;                   /* the message that waits for its answer */
    uint16_t number;                        /* its number, or that of the last one */
    struct lease carried;                   /* the lease that it is about */
    int is_repeated;                        /* it was written more than once, so an answer may have been lost */
    int is_off;                             /* the power was cut, and there was no restart yet */
    enum place cut, next_cut;               /* where the power fails in this step, and in the next lease or ended one */
    size_t cut_bytes;                       /* in a block or in the reverse side: after so many of its bytes */
};

static enum status say(enum status status, const char *what)
{
    printf("%s\n", what);
    return status;
}

/* A refusal in the header's words; its place is one in this text, if there is a text. docs/REFUSALS.md has what to do. */
static enum status refused(uint64_t answer, const uint8_t *text)
{
    uint32_t number = vichrelka_refusal(answer), line = 1, i;

    printf("refused %u", (unsigned)number);
    for (i = 0; text != NULL && i < vichrelka_place(answer); i++)
        line += text[i] == '\n';
    if (text != NULL)
        printf(" at %u, line %u", (unsigned)vichrelka_place(answer), (unsigned)line);
    printf(": %s\n", vichrelka_refusal_text(number));
    return REFUSED;
}

static unsigned blocks(size_t len)
{
    return (unsigned)(len / VICHRELKA_BLOCK_LEN);
}

/* Whether there is room for the blocks of so many steps: asked before a step, since one without its block is lost at a restart. */
static int has_room(const struct gateway *g, size_t steps)
{
    return g->path[0] == '\0' || steps <= (sizeof g->book - g->book_len) / VICHRELKA_BLOCK_LEN;
}

static enum status no_room(void)
{
    return say(TROUBLE, "NOT DONE: the book has no room for the blocks of this; say `tidy FILE`, and then this again");
}

static int is_on_disk(FILE *file)
{
    return fflush(file) == 0 && fsync(fileno(file)) == 0;
}

/* The folder has to be on the disk too. A rename that is forgotten brings back the former file, and then two stores are not in their order. */
static int is_folder_on_disk(const char *path)
{
    char folder[PATH_ROOM];
    const char *slash = strrchr(path, '/');
    int file, good;

    snprintf(folder, sizeof folder, "%.*s", slash == NULL ? 1 : (int)(slash - path) + 1, slash == NULL ? "." : path);
    file = open(folder, O_RDONLY);
    good = file >= 0 && fsync(file) == 0;
    if (file >= 0)
        close(file);
    return good;
}

/* The name of a file with an ending behind it. */
static const char *with_ending(char *other, const char *path, const char *ending)
{
    snprintf(other, PATH_ROOM, "%s%s", path, ending);
    return other;
}

/* A file with this line and these bytes in it. */
static int write_file(const char *path, const char *line, const uint8_t *bytes, size_t len)
{
    FILE *file = fopen(path, "wb");
    int good = file != NULL && fputs(line, file) >= 0 && fwrite(bytes, 1, len, file) == len && is_on_disk(file);

    return file != NULL && fclose(file) == 0 && good;
}

/*
 * A whole file, which begins with this line. It is written under another name first, so that a full disk or a power cut does not cost the
 * former one, and nothing of that one is left behind the end.
 */
static int save(const char *path, const char *line, const uint8_t *bytes, size_t len)
{
    char other[PATH_ROOM];
    int good = write_file(with_ending(other, path, ".new"), line, bytes, len) && rename(other, path) == 0 && is_folder_on_disk(path);

    if (!good)
        remove(other);
    return good;
}

/* Takes the ended lease away that is kept beside this book, if one is: from the disk too, since it would end a later lease. */
static int forget(const char *path)
{
    char other[PATH_ROOM];

    return remove(with_ending(other, path, ENDED)) == 0 ? is_folder_on_disk(path) : errno == ENOENT;
}

/* A power cut: what was in memory is gone. What this gateway is set up with comes again at a restart: the book's file, site and settings. */
static void cut_power(struct gateway *g)
{
    memset(g->table, 0xff, sizeof g->table);
    memset(g->reverse, 0xff, sizeof g->reverse);
    memset(g->book, 0xff, sizeof g->book);
    g->book_len = g->stored_len = 0;
    g->is_reverse_changed = g->has_ended = 0;
    g->cut = NOWHERE;
    g->is_off = 1;
}

/* Whether the power fails here. */
static int fails(struct gateway *g, enum place place)
{
    int is_here = g->cut == place;

    if (is_here)
        cut_power(g);
    return is_here;
}

/*
 * Stores the blocks that are not in the file yet, each before the next: a power cut then damages no more than one. The first goes where
 * the stored ones end, so it covers what a try that failed has left there.
 */
static int store_blocks(struct gateway *g)
{
    size_t len = g->cut == IN_BLOCK ? g->cut_bytes : VICHRELKA_BLOCK_LEN;
    FILE *file = g->stored_len < g->book_len ? fopen(g->path, "r+b") : NULL;
    int good = file != NULL && fseek(file, (long)g->stored_len, SEEK_SET) == 0;

    if (g->stored_len == g->book_len)
        return 1;
    while (good && g->stored_len < g->book_len) {
        good = fwrite(g->book + g->stored_len, 1, len, file) == len && is_on_disk(file);
        g->stored_len += good ? VICHRELKA_BLOCK_LEN : 0;
        good = good && !fails(g, IN_BLOCK);
    }
    if (file != NULL)
        fclose(file);
    return good;
}

/* Stores the reverse side whole, if it has changed: a power cut leaves the former one or this one. */
static int store_reverse(struct gateway *g)
{
    char path[PATH_ROOM];

    if (!g->is_reverse_changed)
        return 1;
    if (g->cut == IN_REVERSE)
        return write_file(with_ending(path, g->path, ".reverse.new"), "", g->reverse, g->cut_bytes) && !fails(g, IN_REVERSE);
    g->is_reverse_changed = !save(with_ending(path, g->path, REVERSE), "", g->reverse, sizeof g->reverse);
    return !g->is_reverse_changed;
}

/*
 * Stores what a step has changed. A lease stores its block first and then the reverse side, an ended one the other way round: so what is
 * stored never has a name behind an address that the name does not have. An ended lease is done then, and need not be kept any longer.
 */
static int store(struct gateway *g)
{
    int (*first)(struct gateway *) = g->is_reverse_first ? store_reverse : store_blocks;
    int (*second)(struct gateway *) = g->is_reverse_first ? store_blocks : store_reverse;
    int good = !fails(g, BEFORE) && first(g) && !fails(g, BETWEEN) && second(g) && !fails(g, AFTER);

    if (good && g->has_ended)
        g->has_ended = !forget(g->path);
    return good && !g->has_ended;
}

/* Stores first what an earlier step could not: two steps that wait may need two orders, and there is one reverse side. */
static int has_caught_up(struct gateway *g)
{
    int is_behind = g->stored_len < g->book_len || g->is_reverse_changed || g->has_ended, good = store(g);

    if (is_behind && good)
        printf("what was NOT STORED is stored now; ");
    return good;
}

static enum status not_caught_up(void)
{
    return say(TROUBLE, "NOT DONE: what was NOT STORED is still not stored; look whether the book's file is there, it and its folder may be written, and "
                        "there is room; then say this again, or `tidy FILE` first");
}

/* The end of a line about the book: when to tidy it. */
static void print_room(const struct gateway *g)
{
    if (sizeof g->book - g->book_len < TIDY_BELOW)
        printf("; TIDY IT by `tidy FILE`: there is room for %u more blocks", blocks(sizeof g->book - g->book_len));
    printf("\n");
}

/* The block of a name that a step has changed, behind the book in memory; nothing if no book is kept. */
static uint64_t note(struct gateway *g, const uint8_t *name, size_t len)
{
    uint64_t answer = 0;

    if (g->path[0] != '\0')
        answer = vichrelka_book_block(g->table, sizeof g->table, name, len, blocks(g->book_len), g->book + g->book_len, sizeof g->book - g->book_len);
    g->book_len += vichrelka_value(answer);
    return answer;
}

/* The end of a step's line: it is stored, from this block on, or it is said that it is not. The step stands in memory either way. */
static enum status kept(const struct gateway *g, unsigned first, int is_stored)
{
    unsigned end = blocks(g->book_len);

    if (!is_stored)
        return say(TROUBLE, "; NOT STORED: tell no client yet, and look whether the book's file is there, it and its folder may be written, and there is "
                            "room; the next step that is stored, or `tidy FILE`, stores this one too");
    if (first == end)
        return say(ACCEPTED, "");
    printf("; stored as block%s %u", end - first > 1 ? "s" : "", first);
    if (end - first > 1)
        printf(" to %u", end - 1);
    print_room(g);
    return ACCEPTED;
}

/* The line of a step that the power cut: nobody was told of it. */
static enum status was_cut(enum place place, size_t bytes)
{
    static const char *const LEFT[] = {[BEFORE] = "nothing is stored", [BETWEEN] = "the first of two is stored", [AFTER] = "both are stored",
                                       [IN_BLOCK] = "bytes of the block are stored", [IN_REVERSE] = "bytes of the reverse side are stored, under another name"};

    printf("POWER CUT: ");
    if (place == IN_BLOCK || place == IN_REVERSE)
        printf("%lu ", (unsigned long)bytes);
    printf("%s; nobody was told, say `restart`\n", LEFT[place]);
    return REFUSED;
}

/* A refused step has changed nothing, and stores nothing; an ended lease that is refused need not be kept. */
static enum status not_stepped(struct gateway *g, uint64_t answer)
{
    if (g->cut != NOWHERE) {
        cut_power(g);
        return was_cut(BEFORE, 0);
    }
    if (g->has_ended)
        g->has_ended = !forget(g->path);
    return refused(answer, NULL);
}

/*
 * The answer of a step on the table, with words for each value that it may have; the block of its name goes into the book. A client is told
 * when all is stored, so the line is printed then.
 */
static enum status stepped(struct gateway *g, uint64_t answer, const char *const *words, const uint8_t *name, size_t len)
{
    enum place cut = g->cut;
    unsigned first = blocks(g->stored_len);
    uint64_t noted;
    int is_stored;

    if (vichrelka_refusal(answer) != 0)
        return not_stepped(g, answer);
    noted = note(g, name, len);
    if (vichrelka_refusal(noted) != 0)
        return refused(noted, NULL);
    is_stored = store(g);
    if (g->is_off)
        return was_cut(cut, g->cut_bytes);
    g->cut = NOWHERE;
    printf("answer %u: %s", (unsigned)vichrelka_value(answer), words[vichrelka_value(answer)]);
    return kept(g, first, is_stored);
}

/* A name that somebody typed, to wire form: its length, or 0 after the refusal was said. */
static size_t read_name(const char *text, uint8_t *name)
{
    uint64_t answer = vichrelka_name_from_text((const uint8_t *)text, strlen(text), name, VICHRELKA_NAME_LIMIT);

    if (vichrelka_refusal(answer) != 0)
        refused(answer, NULL);
    return vichrelka_value(answer);
}

/* A proper name in wire form, printed. */
static void print_name(const uint8_t *name, size_t len)
{
    uint8_t text[VICHRELKA_NAME_TEXT_LIMIT];
    size_t text_len = vichrelka_value(vichrelka_name_to_text(name, len, text, sizeof text));

    printf("%.*s", (int)text_len, (const char *)text);
}

/*
 * An address, of a family by its look: its length, or 0. The library reads it, as the data of a record: so there is no second reader
 * here that could read it in another way. Whether it is one of the message's family is for the library to say too.
 */
static size_t read_address(const char *text, uint8_t *address)
{
    static uint8_t table[VICHRELKA_TABLE_LEN];
    char line[1024];
    int is_long = strchr(text, ':') != NULL;
    int len = snprintf(line, sizeof line, "a. %s %s", is_long ? "AAAA" : "A", text);
    size_t address_len = is_long ? 16 : 4;

    /* a listing may have comments and parentheses, an address may not */
    if (len < 0 || (size_t)len >= sizeof line || strpbrk(text, ";()") != NULL)
        return 0;
    if (vichrelka_refusal(vichrelka_table_load(table, sizeof table, (const uint8_t *)line, (size_t)len)) != 0)
        return 0;
    memcpy(address, table + (is_long ? VICHRELKA_SLOT_AAAA : VICHRELKA_SLOT_A), address_len);
    return address_len;
}

/* A family as it is typed; 0 for none, which the library refuses. */
static uint32_t read_family(const char *text)
{
    return strcmp(text, "4") == 0 ? VICHRELKA_IPV4 : strcmp(text, "6") == 0 ? VICHRELKA_IPV6 : 0;
}

/*
 * The message in a file of hexadecimal digits, two for each byte, with blanks and line ends anywhere and comments from `;` on. At most
 * `room` bytes are kept. 0 if there is no such file, or something else is in it.
 */
static int read_message(const char *path, uint8_t *message, size_t room, size_t *len)
{
    static const char DIGITS[] = "0123456789abcdef";
    FILE *file = fopen(path, "r");
    unsigned value = 0, digits = 0;
    int c, is_comment = 0, good = file != NULL;

    *len = 0;
    while (good && (c = getc(file)) != EOF) {
        is_comment = c == ';' || (is_comment && c != '\n');
        if (is_comment || isspace(c))
            continue;
        good = isxdigit(c);
        value = value << 4 | (good ? (unsigned)(strchr(DIGITS, tolower(c)) - DIGITS) : 0);
        if (++digits % 2 == 0 && *len < room)
            message[(*len)++] = (uint8_t)(value & 0xffu);
    }
    good = good && digits % 2 == 0 && !ferror(file);
    if (file != NULL)
        fclose(file);
    return good;
}

/* Before the call of a lease or an ended one: in which order it will store, and where the power fails. */
static void prepare(struct gateway *g, int is_end)
{
    g->is_reverse_first = is_end;
    g->cut = g->next_cut;
    g->next_cut = NOWHERE;
}

/* The client gets its name with this address, and the address gets the name. */
static enum status give_lease(struct gateway *g, const struct lease *lease)
{
    static const char *const GIVEN[] = {"the name was free and is now this client's", "the client holds the name, and has this address now",
                                        "the name was another client's and is now this one's"};
    uint64_t answer;

    prepare(g, 0);
    answer = vichrelka_lease(g->table, sizeof g->table, g->reverse, sizeof g->reverse, lease->name, lease->name_len, lease->dhcid, sizeof lease->dhcid,
                             lease->family, lease->address, lease->address_len, g->policy);
    g->is_reverse_changed = vichrelka_refusal(answer) == 0 && g->path[0] != '\0';
    return stepped(g, answer, GIVEN, lease->name, lease->name_len);
}

/*
 * An ended lease. Nobody asks for it again, so it is kept beside the book before anything is done, until all is stored. If it was kept from
 * before a restart, 33 and 34 mean that it was done then.
 */
static enum status end_lease(struct gateway *g, const struct lease *lease, int is_again)
{
    static const char *const TAKEN[] = {"the address is gone, the name stays this client's"};
    static const char *const RETURNED[] = {"the last address is gone, and the name is free"};
    uint64_t answer, found;

    prepare(g, 1);
    answer = vichrelka_lease_end(g->table, sizeof g->table, g->reverse, sizeof g->reverse, lease->name, lease->name_len, lease->dhcid, sizeof lease->dhcid,
                                 lease->family, lease->address, lease->address_len);
    g->is_reverse_changed = vichrelka_refusal(answer) == 0 && g->path[0] != '\0';
    if (is_again && g->cut == NOWHERE &&
        (vichrelka_refusal(answer) == VICHRELKA_REFUSED_NAME_NOT_HELD || vichrelka_refusal(answer) == VICHRELKA_REFUSED_ADDRESS_DIFFERS)) {
        g->has_ended = !forget(g->path);
        printf("it was done already (%u)\n", (unsigned)vichrelka_refusal(answer));
        return ACCEPTED;
    }
    /* the answer is 0 whether the name stays or goes with its last address: a find tells which */
    found = vichrelka_table_find(g->table, sizeof g->table, lease->name, lease->name_len);
    return stepped(g, answer, vichrelka_refusal(found) == VICHRELKA_REFUSED_NAME_NOT_HELD ? RETURNED : TAKEN, lease->name, lease->name_len);
}

/* Keeps an ended lease beside the book, if a book is kept. */
static int keep_ended(struct gateway *g, const struct lease *lease)
{
    char path[PATH_ROOM];

    if (g->path[0] == '\0')
        return 1;
    g->has_ended = save(with_ending(path, g->path, ENDED), "", (const uint8_t *)lease, sizeof *lease);
    return g->has_ended;
}

/* The name and the DHCID of a message's client: 0, or the refusal. */
static uint64_t read_client(const struct gateway *g, const uint8_t *message, size_t len, struct lease *lease)
{
    uint64_t answer = vichrelka_name(lease->family, g->setting, message, len, g->site, g->site_len);
    const uint8_t *name = (vichrelka_name_source(answer) == VICHRELKA_SOURCE_SITE ? g->site : message) + vichrelka_name_start(answer);

    if (vichrelka_refusal(answer) != 0)
        return answer;
    lease->name_len = (uint8_t)vichrelka_name_len(answer);
    memcpy(lease->name, name, lease->name_len);
    print_name(lease->name, lease->name_len);
    printf(": ");
    answer = vichrelka_dhcid(lease->family, g->setting, message, len, g->site, g->site_len, lease->dhcid, sizeof lease->dhcid);
    return vichrelka_refusal(answer) != 0 ? answer : 0;
}

static void print_waiting(const struct gateway *g)
{
    static const char *const MESSAGES[] = {
        [ADD_FIRST] = "first of an add", [ADD_SECOND] = "second of an add", [REMOVE_FIRST] = "first of a remove", [REMOVE_SECOND] = "second of a remove"};

    printf("message %u, the %s, ", (unsigned)g->number, MESSAGES[g->waiting]);
}

/* The bytes of the message that waits. */
static uint64_t make_message(const struct gateway *g, uint8_t *out)
{
    static uint64_t (*const WITH_ADDRESS[])(uint16_t, const uint8_t *, size_t, const uint8_t *, size_t, const uint8_t *, size_t, uint32_t, const uint8_t *,
                                            size_t, uint8_t *, size_t) = {
        [ADD_FIRST] = vichrelka_update_add_first, [ADD_SECOND] = vichrelka_update_add_second, [REMOVE_FIRST] = vichrelka_update_remove_first};
    const struct lease *lease = &g->carried;

    if (g->waiting == REMOVE_SECOND)
        return vichrelka_update_remove_second(g->number, g->zone, g->zone_len, lease->name, lease->name_len, lease->dhcid, sizeof lease->dhcid, out,
                                              VICHRELKA_UPDATE_LIMIT);
    return WITH_ADDRESS[g->waiting](g->number, g->zone, g->zone_len, lease->name, lease->name_len, lease->dhcid, sizeof lease->dhcid, lease->family,
                                    lease->address, lease->address_len, out, VICHRELKA_UPDATE_LIMIT);
}

/* Writes the message that waits, as a line of hexadecimal in a file of its own: where a gateway sends it, this one leaves it for a sender. */
static enum status write_message(struct gateway *g)
{
    uint8_t message[VICHRELKA_UPDATE_LIMIT];
    char text[2 * VICHRELKA_UPDATE_LIMIT + 2], ending[8], path[PATH_ROOM];
    uint64_t answer = make_message(g, message);
    size_t len = vichrelka_value(answer), i;

    if (vichrelka_refusal(answer) != 0) {
        g->waiting = NOTHING;
        printf("no message for the name server: ");
        return refused(answer, NULL);
    }
    for (i = 0; i < len; i++)
        snprintf(text + 2 * i, 3, "%02x", message[i]);
    text[2 * len] = '\n';
    snprintf(ending, sizeof ending, ".%u", (unsigned)g->number);
    print_waiting(g);
    if (!save(with_ending(path, g->outbox, ending), "", (const uint8_t *)text, 2 * len + 1)) {
        printf("%s, and say `again`\n", NOT_WRITTEN);
        return TROUBLE;
    }
    printf("%u bytes, by %s\n", (unsigned)len, len > UDP_LIMIT ? "TCP" : "UDP");
    return ACCEPTED;
}

/*
 * The next message of the lease that is carried. Each has a new number, so that an answer is that of this message. Here they are counted, so that
 * this program says the same in each run. A gateway takes random ones, which nobody can guess.
 */
static enum status write_next(struct gateway *g, enum message next)
{
    g->waiting = next;
    g->number++;
    g->is_repeated = 0;
    return write_message(g);
}

/*
 * Carries a step to the name server, by its first message. The table was asked first: what it refused, the server is not asked for. Nor is it for a
 * lease that is NOT STORED: its client is told nothing and asks again. Nobody asks again for an ended one, which is kept by then.
 */
static enum status carry(struct gateway *g, enum status status, const struct lease *lease, enum message first)
{
    enum status written;

    if (g->zone_len == 0)
        return status;
    if (status == REFUSED || (status == TROUBLE && first == ADD_FIRST))
        return say(status, "no message for the name server");
    g->carried = *lease;
    written = write_next(g, first);
    return status > written ? status : written;
}

/* Whether a name is one of the zone: a message without room is refused with 13, or before that with 9 if it is not. */
static int is_in_zone(const struct gateway *g, const struct lease *lease)
{
    uint64_t answer = vichrelka_update_remove_second(0, g->zone, g->zone_len, lease->name, lease->name_len, lease->dhcid, sizeof lease->dhcid, NULL, 0);

    return vichrelka_refusal(answer) != VICHRELKA_REFUSED_NO_PROPER_NAME;
}

/* Whether a step can be carried to the name server, if there is one. This is asked before the table is, which would else be ahead of the server. */
static int can_carry(const struct gateway *g, const struct lease *lease)
{
    if (g->waiting != NOTHING)
        printf("NOT DONE: message %u waits for its answer; say `answered FILE`, `again` to write it once more, or `zone NAME FILE` to give it up\n",
               (unsigned)g->number);
    else if (g->zone_len > 0 && !is_in_zone(g, lease))
        printf("NOT DONE: the name is not in the zone of the name server, which would not take it; give the client one that is\n");
    else
        return 1;
    return 0;
}

/* A request or a release of a client: which name, whose, then the lease or its end. */
static enum status do_lease(struct gateway *g, char **words)
{
    uint8_t message[VICHRELKA_MESSAGE_LIMIT + 1]; /* one byte more, so that what is too long still is */
    struct lease lease = {.family = (uint8_t)read_family(words[1])};
    size_t len;
    uint64_t answer;

    lease.address_len = (uint8_t)read_address(words[3], lease.address);
    if (!read_message(words[2], message, sizeof message, &len))
        return say(TROUBLE, NO_MESSAGE);
    if (lease.address_len == 0)
        return say(TROUBLE, "no address: write four numbers with dots, or eight groups of hexadecimal digits with colons");
    answer = read_client(g, message, len, &lease);
    if (vichrelka_refusal(answer) != 0)
        return refused(answer, NULL);
    if (!can_carry(g, &lease))
        return REFUSED;
    if (!has_room(g, 1))
        return no_room();
    if (!has_caught_up(g))
        return not_caught_up();
    if (strcmp(words[0], "request") == 0)
        return carry(g, give_lease(g, &lease), &lease, ADD_FIRST);
    if (!keep_ended(g, &lease))
        return say(TROUBLE, "NOT DONE: the ended lease cannot be kept beside the book; look whether the folder may be written and has room, then this again");
    return carry(g, end_lease(g, &lease, 0), &lease, REMOVE_FIRST);
}

/* What a server's code says of a message, and which one follows. */
static const struct meaning {
    enum message message;
    uint32_t code;
    enum message next;
    enum status status;
    const char *words;
} MEANINGS[] = {
    {ADD_FIRST, VICHRELKA_CODE_DONE, NOTHING, ACCEPTED, "done, the name was not in use there and is now this client's"},
    {ADD_FIRST, VICHRELKA_CODE_NAME_IN_USE, ADD_SECOND, ACCEPTED, "the name is in use there, so the second message follows"},
    {ADD_SECOND, VICHRELKA_CODE_DONE, NOTHING, ACCEPTED, "done, the client holds the name there, and has this address now"},
    {ADD_SECOND, VICHRELKA_CODE_NO_SUCH_SET, NOTHING, REFUSED,
     "another client holds the name there, or it is kept by hand; end this lease by `release`, or free the name there and say `request` again"},
    {REMOVE_FIRST, VICHRELKA_CODE_DONE, REMOVE_SECOND, ACCEPTED, "the address is gone there, so the second message follows"},
    {REMOVE_FIRST, VICHRELKA_CODE_NO_SUCH_SET, NOTHING, REFUSED,
     "there is nothing of this client to delete there; if that is news, compare the zone with `show`"},
    {REMOVE_SECOND, VICHRELKA_CODE_DONE, NOTHING, ACCEPTED, "done, the name is gone there"},
    {REMOVE_SECOND, VICHRELKA_CODE_SET_STANDS, NOTHING, ACCEPTED, "done, an address of the other family stands there, and the name stays this client's"},
    {REMOVE_SECOND, VICHRELKA_CODE_NO_SUCH_SET, NOTHING, ACCEPTED, "done, nothing of this client is left there"}};

/* The meaning of a code for the message that waits; NULL if no server that keeps to RFC 2136 gives it. */
static const struct meaning *find_meaning(const struct gateway *g, uint32_t code)
{
    static const struct meaning LOST = {REMOVE_FIRST, VICHRELKA_CODE_NO_SUCH_SET, REMOVE_SECOND, ACCEPTED,
                                        "there is nothing of this client to delete there, but an answer may have been lost, so the second message follows"};
    size_t i;

    if (g->is_repeated && g->waiting == LOST.message && code == LOST.code)
        return &LOST;
    for (i = 0; i < sizeof MEANINGS / sizeof *MEANINGS; i++)
        if (MEANINGS[i].message == g->waiting && MEANINGS[i].code == code)
            return &MEANINGS[i];
    return NULL;
}

/* The code of a server's answer: what it means, and the second message where one follows. After a code that means nothing here the message waits on. */
static enum status take_code(struct gateway *g, uint32_t code)
{
    const struct meaning *meaning = find_meaning(g, code);

    printf("code %u: ", (unsigned)code);
    if (meaning == NULL)
        return say(REFUSED, "no server that keeps to RFC 2136 gives this code here; the message waits on; a person has to look at the server and say `again`");
    printf("%s\n", meaning->words);
    g->waiting = NOTHING;
    return meaning->next == NOTHING ? meaning->status : write_next(g, meaning->next);
}

/* A server's answer to the message that waits. The library looks at its first bytes only, so no more of them are kept. */
static enum status do_answered(struct gateway *g, char **words)
{
    uint8_t bytes[VICHRELKA_UPDATE_ANSWER_MIN];
    size_t len;
    uint64_t answer;

    if (g->waiting == NOTHING)
        return say(TROUBLE, NOTHING_WAITS);
    if (!read_message(words[1], bytes, sizeof bytes, &len))
        return say(TROUBLE, NO_MESSAGE);
    answer = vichrelka_update_answer(g->number, bytes, len);
    print_waiting(g);
    if (vichrelka_refusal(answer) == 0)
        return take_code(g, vichrelka_value(answer));
    if (vichrelka_refusal(answer) == VICHRELKA_REFUSED_ANOTHER_CODE)
        printf("code %u: not carried out, and waits on; a person has to read the code (RFC 2136, 2.2), mend what it says and say `again`: ", bytes[3] & 0xfu);
    else
        printf("waits on: ");
    return refused(answer, NULL);
}

/* The same message once more, under its own number: no answer came, or a person has mended what the server complained of. */
static enum status do_again(struct gateway *g, char **words)
{
    (void)words;
    if (g->waiting == NOTHING)
        return say(TROUBLE, NOTHING_WAITS);
    g->is_repeated = 1;
    return write_message(g);
}

/* The zone that messages are for, and where they go. One that waits is given up. */
static enum status do_zone(struct gateway *g, char **words)
{
    size_t len;

    if (g->policy != VICHRELKA_FIRST_WINS)
        return say(REFUSED, NO_TAKEOVER);
    if ((len = read_name(words[1], g->zone)) == 0)
        return REFUSED;
    g->zone_len = len;
    snprintf(g->outbox, sizeof g->outbox, "%s", words[2]);
    g->waiting = NOTHING;
    return say(ACCEPTED, "done");
}

static enum status do_clear(struct gateway *g, char **words)
{
    static const char *const CLEARED[] = {"the name is free"};
    uint8_t name[VICHRELKA_NAME_LIMIT];
    size_t len = read_name(words[1], name);

    if (len == 0)
        return REFUSED;
    if (!has_room(g, 1))
        return no_room();
    if (!has_caught_up(g))
        return not_caught_up();
    return stepped(g, vichrelka_table_clear(g->table, sizeof g->table, name, len), CLEARED, name, len);
}

/*
 * Takes out the names that have a DHCID and no address: a listing may have them, and no remove takes them. Later names move up when one
 * goes, so the last one comes first. The name is copied out of its slot, since the library writes to the table.
 */
static enum status do_clear_without_address(struct gateway *g, char **words)
{
    uint64_t answer = vichrelka_table_count(g->table, sizeof g->table);
    uint32_t i = vichrelka_value(answer), cleared = 0;
    unsigned first;

    (void)words;
    if (!has_room(g, i))
        return no_room();
    if (!has_caught_up(g))
        return not_caught_up();
    first = blocks(g->stored_len);
    for (; vichrelka_refusal(answer) == 0 && i > 0; i--) {
        const uint8_t *slot = g->table + (i - 1) * VICHRELKA_SLOT_LEN;
        uint8_t name[VICHRELKA_NAME_LIMIT], len = slot[0];

        if (slot[VICHRELKA_SLOT_FLAGS] == HAS_DHCID) {
            memcpy(name, slot + VICHRELKA_SLOT_NAME, len);
            print_name(name, len);
            printf(" ");
            answer = vichrelka_table_clear(g->table, sizeof g->table, name, len);
            if (vichrelka_refusal(answer) == 0)
                answer = note(g, name, len);
            cleared++;
        }
    }
    if (vichrelka_refusal(answer) != 0)
        return refused(answer, NULL);
    printf("names: %u", (unsigned)cleared);
    return kept(g, first, store(g));
}

/* What the table has of a name. Its slot alone, with zeros behind it, is a table too, which the library writes. */
static enum status do_find(struct gateway *g, char **words)
{
    static uint8_t one[VICHRELKA_TABLE_LEN], text[VICHRELKA_WRITTEN_LIMIT];
    uint8_t name[VICHRELKA_NAME_LIMIT];
    size_t len = read_name(words[1], name);
    uint64_t answer;

    if (len == 0)
        return REFUSED;
    answer = vichrelka_table_find(g->table, sizeof g->table, name, len);
    if (vichrelka_refusal(answer) != 0)
        return refused(answer, NULL);
    memcpy(one, g->table + vichrelka_value(answer) * VICHRELKA_SLOT_LEN, VICHRELKA_SLOT_LEN);
    printf("slot %u, %s\n", (unsigned)vichrelka_value(answer), one[VICHRELKA_SLOT_FLAGS] & HAS_DHCID ? "held by a client" : "kept by hand");
    answer = vichrelka_table_write(one, sizeof one, text, sizeof text);
    printf("%.*s", (int)vichrelka_value(answer), (const char *)text);
    return ACCEPTED;
}

static enum status do_count(struct gateway *g, char **words)
{
    uint64_t answer = vichrelka_table_count(g->table, sizeof g->table);
    unsigned names = vichrelka_value(answer);

    (void)words;
    if (vichrelka_refusal(answer) != 0)
        return refused(answer, NULL);
    printf("names: %u, and there is room for %u more\n", names, VICHRELKA_TABLE_NAMES - names);
    return ACCEPTED;
}

/* The site's name, which name a client gets, and who gets a name that another client holds. */
static enum status do_set(struct gateway *g, char **words)
{
    size_t len;

    if (strcmp(words[0], "site") == 0) {
        if ((len = read_name(words[1], g->site)) == 0)
            return REFUSED;
        g->site_len = len;
    } else if (strcmp(words[1], "client-names") == 0 || strcmp(words[1], "site-name") == 0) {
        g->setting = words[1][0] == 'c' ? VICHRELKA_CLIENT_FIRST : VICHRELKA_SITE_ONLY;
    } else if (g->zone_len > 0 && strcmp(words[1], "latest-wins") == 0) {
        return say(REFUSED, NO_TAKEOVER);
    } else if (strcmp(words[1], "first-wins") == 0 || strcmp(words[1], "latest-wins") == 0) {
        g->policy = words[1][0] == 'f' ? VICHRELKA_FIRST_WINS : VICHRELKA_LATEST_WINS;
    } else {
        return say(TROUBLE, "no such setting: there are client-names, site-name, first-wins and latest-wins");
    }
    return say(ACCEPTED, "done");
}

/*
 * The table as a listing: to a file, or shown. How many records were written, the check of what was written says. In a file the number is a
 * comment in the first line. That is a habit of this program: the library reads over it.
 */
static enum status do_write(struct gateway *g, char **words)
{
    static uint8_t text[VICHRELKA_WRITTEN_LIMIT];
    char line[32];
    uint64_t written = vichrelka_table_write(g->table, sizeof g->table, text, sizeof text);
    size_t len = vichrelka_value(written);
    unsigned records = vichrelka_value(vichrelka_listing_check(text, len));

    if (vichrelka_refusal(written) != 0)
        return refused(written, NULL);
    snprintf(line, sizeof line, "; records: %u\n", records);
    if (words[1] != NULL && !save(words[1], line, text, len))
        return say(TROUBLE, NOT_WRITTEN);
    printf("records: %u\n%.*s", records, words[1] == NULL ? (int)len : 0, (const char *)text);
    return ACCEPTED;
}

static unsigned addresses(const uint8_t *reverse)
{
    unsigned i = 0;

    while (i < VICHRELKA_REVERSE_NAMES && reverse[i * VICHRELKA_REVERSE_SLOT_LEN] != 0)
        i++;
    return i;
}

/* For each address its PTR name and the name behind it, as a name server has them. */
static enum status do_show_reverse(struct gateway *g, char **words)
{
    unsigned count = addresses(g->reverse), i;

    (void)words;
    printf("addresses: %u\n", count);
    for (i = 0; i < count; i++) {
        const uint8_t *slot = g->reverse + i * VICHRELKA_REVERSE_SLOT_LEN;
        uint8_t name[VICHRELKA_PTR_LIMIT];
        uint64_t answer = vichrelka_ptr_name(slot[0], slot + VICHRELKA_REVERSE_ADDRESS, slot[0] == VICHRELKA_IPV4 ? 4 : 16, name, sizeof name);

        print_name(name, vichrelka_value(answer));
        printf(" PTR ");
        print_name(slot + VICHRELKA_REVERSE_NAME, slot[VICHRELKA_REVERSE_NAME_LEN]);
        printf("\n");
    }
    return ACCEPTED;
}

/* The leases of a name again, with what its slot has: the slot is copied, since the library writes to the table. */
static uint64_t lease_again(struct gateway *g, uint8_t *reverse, uint32_t index)
{
    uint8_t slot[VICHRELKA_SLOT_LEN];
    uint64_t answer = 0;

    memcpy(slot, g->table + index * VICHRELKA_SLOT_LEN, sizeof slot);
    if ((slot[VICHRELKA_SLOT_FLAGS] & HAS_DHCID) == 0)
        return 0; /* kept by hand: no client has it */
    if (slot[VICHRELKA_SLOT_FLAGS] & HAS_A)
        answer = vichrelka_lease(g->table, sizeof g->table, reverse, VICHRELKA_REVERSE_LEN, slot + VICHRELKA_SLOT_NAME, slot[0], slot + VICHRELKA_SLOT_DHCID,
                                 VICHRELKA_DHCID_LEN, VICHRELKA_IPV4, slot + VICHRELKA_SLOT_A, 4, g->policy);
    if (vichrelka_refusal(answer) == 0 && slot[VICHRELKA_SLOT_FLAGS] & HAS_AAAA)
        answer = vichrelka_lease(g->table, sizeof g->table, reverse, VICHRELKA_REVERSE_LEN, slot + VICHRELKA_SLOT_NAME, slot[0], slot + VICHRELKA_SLOT_DHCID,
                                 VICHRELKA_DHCID_LEN, VICHRELKA_IPV6, slot + VICHRELKA_SLOT_AAAA, 16, g->policy);
    return answer;
}

/* The reverse side made of the table: what names of former addresses it had, and of takeovers and cleared names, are gone. */
static enum status do_renew_reverse(struct gateway *g, char **words)
{
    static uint8_t reverse[VICHRELKA_REVERSE_LEN];
    uint64_t answer = vichrelka_table_count(g->table, sizeof g->table);
    uint32_t names = vichrelka_value(answer), i;
    unsigned before = addresses(g->reverse);

    (void)words;
    if (!has_caught_up(g))
        return not_caught_up();
    memset(reverse, 0, sizeof reverse);
    for (i = 0; vichrelka_refusal(answer) == 0 && i < names; i++)
        answer = lease_again(g, reverse, i);
    if (vichrelka_refusal(answer) != 0)
        return refused(answer, NULL);
    memcpy(g->reverse, reverse, sizeof g->reverse);
    g->is_reverse_changed = g->path[0] != '\0';
    printf("addresses: %u, they were %u", addresses(g->reverse), before);
    return kept(g, blocks(g->book_len), store(g));
}

/* Keeps this book from now on; the file has all of it. */
static void keep(struct gateway *g, const char *path, const uint8_t *book, size_t len)
{
    memmove(g->path, path, strlen(path) + 1);
    memcpy(g->book, book, len);
    g->book_len = g->stored_len = len;
}

/* The blocks of a table's names in their order, under 0, 1, 2 and so on: their bytes. */
static size_t fresh_book(const uint8_t *table, uint8_t *book)
{
    uint32_t names = vichrelka_value(vichrelka_table_count(table, VICHRELKA_TABLE_LEN)), i;
    size_t len = 0;

    for (i = 0; i < names; i++) {
        const uint8_t *slot = table + i * VICHRELKA_SLOT_LEN;

        len += vichrelka_value(vichrelka_book_block(table, VICHRELKA_TABLE_LEN, slot + VICHRELKA_SLOT_NAME, slot[0], i, book + len, VICHRELKA_BLOCK_LEN));
    }
    return len;
}

/* Whole files in the place of what is there, or with the reverse side as it is if none is given. A failure leaves none that is not this book's. */
static int replace(const char *path, const uint8_t *reverse, const uint8_t *book, size_t len)
{
    char other[PATH_ROOM];
    int good = forget(path);

    with_ending(other, path, REVERSE);
    if (reverse == NULL)
        return good && save(path, "", book, len);
    good = good && save(other, "", reverse, VICHRELKA_REVERSE_LEN) && save(path, "", book, len);
    if (!good)
        remove(other);
    return good;
}

/*
 * Takes a table in the place of the former one, and a reverse side if one is given, with a fresh book of it in this file, or with none. The
 * files come first: if they cannot be written, the gateway is as it was.
 */
static int begin(struct gateway *g, const uint8_t *table, const uint8_t *reverse, const char *path)
{
    static uint8_t book[VICHRELKA_TIDIED_LIMIT];

    if (path[0] != '\0') {
        size_t len = fresh_book(table, book);

        if (!replace(path, reverse, book, len)) {
            g->is_reverse_changed |= reverse != NULL && strcmp(path, g->path) == 0; /* it may be gone from the disk: the next step stores it */
            return 0;
        }
        keep(g, path, book, len);
        g->has_ended = 0;
    }
    memcpy(g->table, table, sizeof g->table);
    if (reverse != NULL) {
        memcpy(g->reverse, reverse, sizeof g->reverse);
        g->is_reverse_changed = 0;
    }
    return 1;
}

/* The end of a line, after a table was taken. */
static void print_begun(const struct gateway *g)
{
    if (g->path[0] != '\0')
        printf("; the book is begun anew, blocks: %u", blocks(g->book_len));
    printf("\n");
}

/* An empty table and an empty reverse side, and an empty book in the place of the one that is kept; or in another file, but not over one that is there. */
static enum status do_new(struct gateway *g, char **words)
{
    static const uint8_t EMPTY[VICHRELKA_TABLE_LEN], NO_ADDRESS[VICHRELKA_REVERSE_LEN];
    FILE *file = words[1] == NULL ? NULL : fopen(words[1], "rb");

    if (file != NULL) {
        fclose(file);
        return say(TROUBLE, "NOT DONE: this file is there; go on from its book by `book FILE`, or give another name");
    }
    if (!begin(g, EMPTY, NO_ADDRESS, words[1] == NULL ? g->path : words[1]))
        return say(TROUBLE, NOT_WRITTEN);
    printf("done");
    print_begun(g);
    return ACCEPTED;
}

enum content { ABSENT, WHOLE, DAMAGED };

/* A file beside the book, of so many bytes. */
static enum content read_beside(const char *path, const char *ending, void *bytes, size_t len)
{
    char other[PATH_ROOM];
    FILE *file = fopen(with_ending(other, path, ending), "rb");
    enum content content = file == NULL && errno == ENOENT ? ABSENT : DAMAGED;

    if (file != NULL && fread(bytes, 1, len, file) == len && getc(file) == EOF && !ferror(file))
        content = WHOLE;
    if (file != NULL)
        fclose(file);
    return content;
}

/* Whether the bytes are a reverse side. An end of no lease is refused with 9, or before that with 40 if they are not. */
static int is_reverse_side(uint8_t *reverse)
{
    static uint8_t table[VICHRELKA_TABLE_LEN];
    uint64_t answer = vichrelka_lease_end(table, sizeof table, reverse, VICHRELKA_REVERSE_LEN, NULL, 0, NULL, 0, VICHRELKA_IPV4, NULL, 0);

    return vichrelka_refusal(answer) != VICHRELKA_REFUSED_TABLE_NOT_SOUND;
}

/* What is kept beside a book. Both are renamed when they are whole, so no power cut damages them: a person has to decide. */
static const char *read_sides(const char *path, uint8_t *reverse, enum content *is_there, struct lease *ended, enum content *is_ended)
{
    *is_there = read_beside(path, REVERSE, reverse, VICHRELKA_REVERSE_LEN);
    *is_ended = read_beside(path, ENDED, ended, sizeof *ended);
    if (*is_there == ABSENT)
        memset(reverse, 0, VICHRELKA_REVERSE_LEN);
    if (*is_there == DAMAGED || !is_reverse_side(reverse))
        return "NOT REPLAYED, nothing cut off: FILE.reverse is no reverse side; fetch it again, or take it away, say this again and then `renew-reverse`";
    if (*is_ended == DAMAGED || (*is_ended == WHOLE && ended->address_len > sizeof ended->address))
        return "NOT REPLAYED, nothing cut off: FILE.ended is no ended lease; take it away, say this again and then `release` for the lease that had ended";
    return NULL;
}

/* An ended lease that was kept from before the restart: it may be undone, done in part, or done, and so may its first message. */
static enum status end_again(struct gateway *g, const struct lease *lease)
{
    enum status status;

    g->has_ended = 1;
    printf("an ended lease was kept, ");
    print_name(lease->name, lease->name_len);
    printf(": ");
    status = carry(g, end_lease(g, lease, 1), lease, REMOVE_FIRST);
    g->is_repeated = 1;
    return status;
}

/*
 * Reads a book: how many of its bytes are sound, and how many behind them may be cut off. That is only what a write that was cut leaves: a part
 * of a block, or one whole block with a wrong check. With anything else there a person has to decide.
 */
static enum status read_book(const char *path, uint8_t *book, size_t *sound, size_t *rest)
{
    static uint8_t table[VICHRELKA_TABLE_LEN];
    static const uint8_t NUMBER[4];
    FILE *file = fopen(path, "r+b");
    size_t len = file == NULL ? 0 : fread(book, 1, BOOK_LIMIT + 1, file);
    int is_bad = file == NULL || ferror(file);
    uint64_t answer;

    if (file != NULL)
        fclose(file);
    if (is_bad)
        return say(TROUBLE, "cannot be read and written: look whether the file is there; `new FILE` begins a book");
    if (len > BOOK_LIMIT) {
        printf("TOO LARGE: there is memory for %u blocks; build this program with a larger BOOK_LIMIT, and tidy the book\n", blocks(BOOK_LIMIT));
        return TROUBLE;
    }
    *sound = (size_t)vichrelka_value(vichrelka_book_sound(book, len)) * VICHRELKA_BLOCK_LEN;
    *rest = len - *sound;
    /* somebody may have named another file, and it would be lost: the first block of a book has the number 0 */
    if (*sound == 0 && memcmp(book, NUMBER, len < sizeof NUMBER ? len : sizeof NUMBER) != 0)
        return say(REFUSED, "NOT REPLAYED, nothing cut off: no block is sound, and the file does not begin as a book; look whether it is one");
    if (*rest < VICHRELKA_BLOCK_LEN)
        return ACCEPTED;
    answer = vichrelka_book_replay(table, sizeof table, book, *sound + VICHRELKA_BLOCK_LEN);
    if (*rest == VICHRELKA_BLOCK_LEN && vichrelka_refusal(answer) == VICHRELKA_REFUSED_WRONG_CHECK)
        return ACCEPTED;
    printf("NOT REPLAYED, nothing cut off: %lu bytes are behind the %u sound blocks, and no write that was cut leaves them; a person has to "
           "decide: fetch the book again, or go on from the first %lu bytes of it in another file: ",
           (unsigned long)*rest, blocks(*sound), (unsigned long)*sound);
    return refused(answer, NULL);
}

/* A restart: book and reverse side as they are stored, without what was cut off, and then an ended lease that was kept, before anything else. */
static enum status do_book(struct gateway *g, char **words)
{
    static uint8_t book[BOOK_LIMIT + 1], reverse[VICHRELKA_REVERSE_LEN]; /* one byte more, so that what is too long still is */
    struct lease ended;
    enum content is_there, is_ended;
    size_t sound, rest;
    enum status status = read_book(words[1], book, &sound, &rest), again = ACCEPTED;
    const char *complaint = status != ACCEPTED ? NULL : read_sides(words[1], reverse, &is_there, &ended, &is_ended);
    uint64_t answer;

    if (status != ACCEPTED)
        return status;
    if (complaint != NULL)
        return say(REFUSED, complaint);
    if (rest > 0 && truncate(words[1], (off_t)sound) != 0)
        return say(TROUBLE, "NOT REPLAYED: the end cannot be cut off; look whether the file may be written");
    answer = vichrelka_book_replay(g->table, sizeof g->table, book, sound);
    if (vichrelka_refusal(answer) != 0)
        return refused(answer, NULL);
    keep(g, words[1], book, sound);
    memcpy(g->reverse, reverse, sizeof g->reverse);
    g->is_reverse_changed = g->has_ended = g->is_off = 0;
    g->waiting = NOTHING;
    printf("blocks: %u, names: %u", blocks(sound), (unsigned)vichrelka_value(vichrelka_table_count(g->table, sizeof g->table)));
    if (rest > 0)
        printf("; CUT OFF: %lu bytes, of a write that was cut or of a block that was damaged later: a client may have been told of that step",
               (unsigned long)rest);
    if (is_there == ABSENT)
        printf("; NO REVERSE SIDE is beside it: it begins empty, `renew-reverse` makes it of the table");
    print_room(g);
    if (is_ended == WHOLE)
        again = end_again(g, &ended);
    return rest > 0 && again == ACCEPTED ? REFUSED : again;
}

/* The same book again, as after a power cut. */
static enum status do_restart(struct gateway *g, char **words)
{
    (void)words;
    if (g->path[0] == '\0')
        return say(TROUBLE, NO_BOOK);
    return do_book(g, (char *[]){NULL, g->path});
}

/* Where the power fails in the next request or release. */
static enum status do_cut(struct gateway *g, char **words)
{
    static const char *const PLACES[] = {
        [BEFORE] = "before", [BETWEEN] = "between", [AFTER] = "after", [IN_BLOCK] = "in-block", [IN_REVERSE] = "in-reverse"};
    unsigned long bytes = 0;
    int place = IN_REVERSE, has_bytes;
    char more;

    if (g->path[0] == '\0')
        return say(TROUBLE, NO_BOOK);
    while (place > NOWHERE && strcmp(words[1], PLACES[place]) != 0)
        place--;
    has_bytes = place == IN_BLOCK || place == IN_REVERSE;
    if (place == NOWHERE || has_bytes != (words[2] != NULL) || (has_bytes && sscanf(words[2], "%9lu%c", &bytes, &more) != 1) ||
        bytes > (place == IN_BLOCK ? VICHRELKA_BLOCK_LEN : VICHRELKA_REVERSE_LEN))
        return say(TROUBLE, "no such place: there are before, between, after, in-block N (0 to 512) and in-reverse N (0 to 34944)");
    g->next_cut = (enum place)place;
    g->cut_bytes = bytes;
    return say(ACCEPTED, "done");
}

/*
 * The tidied book into a file, then on from there, with the reverse side beside it. The file has it whole or not at all, and both books
 * replay to the same table. What was NOT STORED is stored with it, in its order.
 */
static enum status do_tidy(struct gateway *g, char **words)
{
    static uint8_t tidied[VICHRELKA_TIDIED_LIMIT];
    unsigned before = blocks(g->book_len);
    uint64_t answer = vichrelka_book_tidy(g->book, g->book_len, tidied, sizeof tidied);
    size_t len = vichrelka_value(answer);

    if (g->path[0] == '\0')
        return say(TROUBLE, NO_BOOK);
    if (vichrelka_refusal(answer) != 0)
        return refused(answer, NULL);
    if (strcmp(words[1], g->path) != 0) {
        if (!replace(words[1], g->reverse, tidied, len))
            return say(TROUBLE, NOT_WRITTEN);
        g->is_reverse_changed = g->has_ended = 0;
    } else if ((g->is_reverse_first && !store_reverse(g)) || !save(words[1], "", tidied, len)) {
        return say(TROUBLE, NOT_WRITTEN);
    }
    keep(g, words[1], tidied, len);
    if (!store(g))
        return say(TROUBLE, NOT_WRITTEN);
    printf("blocks: %u, they were %u\n", blocks(len), before);
    return ACCEPTED;
}

/* The number of records that the first line of a file says, or -1 if it says none. */
static long records_said(const uint8_t *text, size_t len)
{
    char first[32] = "", end;
    long records;

    memcpy(first, text, len < sizeof first ? len : sizeof first - 1);
    return sscanf(first, "; records: %9ld%c", &records, &end) == 2 && end == '\n' ? records : -1;
}

/* A listing into the table, unless fewer or more records came than were written: an entry that is lost whole, no reader can see. */
static enum status do_load(struct gateway *g, char **words)
{
    static uint8_t text[VICHRELKA_LISTING_LIMIT + 1], table[VICHRELKA_TABLE_LEN]; /* one byte more, so that what is too long still is */
    FILE *file = fopen(words[1], "rb");
    size_t len = file == NULL ? 0 : fread(text, 1, sizeof text, file);
    int is_bad = file == NULL || ferror(file), is_whole;
    uint64_t answer = vichrelka_listing_check(text, len);
    long said = records_said(text, len), records = (long)vichrelka_value(answer);

    if (file != NULL)
        fclose(file);
    if (is_bad)
        return say(TROUBLE, "cannot be read: look whether the file is there");
    if (vichrelka_refusal(answer) != 0)
        return refused(answer, text);
    is_whole = said < 0 || said == records;
    if (!is_whole && strcmp(words[0], "load") == 0) {
        printf("NOT LOADED: records: %ld, but %ld were written; fetch the file again, or say `load-anyway FILE`\n", records, said);
        return REFUSED;
    }
    answer = vichrelka_table_load(table, sizeof table, text, len);
    if (vichrelka_refusal(answer) != 0)
        return refused(answer, NULL);
    if (!begin(g, table, NULL, g->path))
        return say(TROUBLE, "NOT LOADED: the fresh book is not written; look whether the folder of the book may be written and has room");
    printf("records: %ld, ", records);
    if (!is_whole)
        printf("but %ld were written", said);
    else
        printf("%s", said < 0 ? "and the file does not say how many were written" : "as many as were written");
    print_begun(g);
    return is_whole ? ACCEPTED : REFUSED;
}

static const struct command {
    const char *name;
    int words; /* with the name */
    enum status (*run)(struct gateway *, char **words);
} COMMANDS[] = {{"request", 4, do_lease},    {"release", 4, do_lease}, {"clear", 2, do_clear}, {"clear-without-address", 1, do_clear_without_address},
                {"find", 2, do_find},        {"count", 1, do_count},   {"write", 2, do_write}, {"show", 1, do_write},
                {"load", 2, do_load},        {"new", 1, do_new},       {"new", 2, do_new},     {"load-anyway", 2, do_load},
                {"site", 2, do_set},         {"set", 2, do_set},       {"book", 2, do_book},   {"show-reverse", 1, do_show_reverse},
                {"restart", 1, do_restart},  {"cut", 2, do_cut},       {"cut", 3, do_cut},     {"renew-reverse", 1, do_renew_reverse},
                {"tidy", 2, do_tidy},        {"zone", 3, do_zone},     {"again", 1, do_again}, {"answered", 2, do_answered}};

/* Without power there is nothing but a restart, and what is to be tried there. */
static int is_without_power(const struct command *command)
{
    return command->run == do_restart || command->run == do_book || command->run == do_cut;
}

/* One line: a comment is said again, to go with the answers; of a command, what was asked and what came of it. */
static enum status obey(struct gateway *g, char *line)
{
    char *words[6] = {NULL};
    int count = 0, i;
    size_t c;

    if (line[0] == ';')
        return say(ACCEPTED, line);
    for (words[0] = strtok(line, " \t"); words[count] != NULL && count < 5; words[count] = strtok(NULL, " \t"))
        count++;
    if (count == 0)
        return ACCEPTED;
    for (i = 0; i < count; i++)
        printf("%s%s", words[i], i + 1 < count ? " " : ": ");
    for (c = 0; c < sizeof COMMANDS / sizeof *COMMANDS; c++)
        if (strcmp(words[0], COMMANDS[c].name) == 0 && COMMANDS[c].words == count)
            return g->is_off && !is_without_power(&COMMANDS[c]) ? say(TROUBLE, "NOT DONE: the power is off; say `restart`") : COMMANDS[c].run(g, words);
    return say(TROUBLE, "no such command, or not with so many words; README.md has them all");
}

/* The next line, without its end, with `?` for what cannot be printed, and as much of it as there is room for: its length, or -1. */
static long read_line(FILE *in, char *line, size_t room)
{
    size_t len = 0;
    int c;

    while ((c = getc(in)) != EOF && c != '\n')
        if (len < room - 1)
            line[len++] = (char)(isprint(c) || c == '\t' ? c : '?');
    line[len] = '\0';
    return c == EOF && len == 0 ? -1 : (long)len;
}

int main(int argc, char **argv)
{
    static struct gateway gateway = {.setting = VICHRELKA_CLIENT_FIRST, .policy = VICHRELKA_FIRST_WINS};
    enum status worst = ACCEPTED, status;
    char line[LINE_LIMIT];
    long len;
    FILE *in = argc < 2 ? stdin : fopen(argv[1], "r");

    if (argc > 2 || in == NULL) {
        fprintf(stderr, "usage: host [FILE], with a FILE of commands that can be read, or commands on standard input\n");
        return TROUBLE;
    }
    while ((len = read_line(in, line, sizeof line)) >= 0) {
        if (len == sizeof line - 1)
            status = say(TROUBLE, "a line is too long: commands have 510 characters at most");
        else
            status = obey(&gateway, line);
        worst = status > worst ? status : worst;
    }
    if (ferror(in) || fflush(stdout) != 0 || ferror(stdout)) {
        fprintf(stderr, "host: the commands could not be read to their end, or the answers not be written\n");
        return TROUBLE;
    }
    return worst;
}
