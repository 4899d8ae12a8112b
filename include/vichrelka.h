/* SPDX-License-Identifier: LicenseRef-LICENSE */
/*
 * Vichrelka: which DHCP client holds which name.
 *
 * This is the part of a site gateway that reads DHCP requests, computes DHCIDs (RFC 4701), reads and writes the
 * listing of names, and keeps the table of names, with a book for the next restart, the reverse names of the
 * addresses, and the messages that carry it to a name server. Every call is proved to meet a written promise for every
 * input, the refused ones included. The comment at each call has that promise in short, docs/PROMISES.md has it in
 * full.
 *
 * Every call answers one uint64_t: keep it in one. The low half is the number of a refusal, 0 if the call was
 * accepted. The high half is the call's value if it was accepted, and an offset into what was refused if it was
 * not. Take it apart with vichrelka_refusal, vichrelka_value and vichrelka_place. A refused call has changed
 * nothing.
 *
 *     uint64_t answer = vichrelka_listing_check(text, text_len);
 *     uint32_t refusal = vichrelka_refusal(answer);
 *     if (refusal == 0)
 *         printf("%u records\n", (unsigned)vichrelka_value(answer));
 *     else
 *         printf("refused %u at %u: %s\n", (unsigned)refusal,
 *                (unsigned)vichrelka_place(answer), vichrelka_refusal_text(refusal));
 *
 * The number is in the low half because C drops the high half in silence. An answer that is kept in an int by
 * mistake still has the number of its refusal; a value that is taken so is 0 at the first try, and not a wrong one
 * in the field. Compilers that can do so warn where an answer is dropped.
 *
 * What the caller owes, for every pointer with its length: so many bytes can be read there until the call returns,
 * and nobody else writes them meanwhile; the length is below 2^63; the pointer is null only if the length is 0.
 * What a call writes (its pointer is not to const) can be written too, and overlaps nothing else that is lent to
 * the call.
 *
 * What a call needs: memcpy and memset from the host, and less than 5 KB of stack (docs/TRUST.md has the figures).
 * Nothing else: there is no heap, no global data, no input and no output. Calls on different memory may run in any
 * thread at the same time, and so may calls that only read the same memory.
 *
 * The library is machine code for x86-64 with the System V ABI and 64-bit pointers, as Linux has it.
 */
#ifndef VICHRELKA_H
#define VICHRELKA_H

#if !defined(__x86_64__) || defined(__ILP32__) || defined(_WIN32) || defined(__CYGWIN__) || defined(__APPLE__)
#error "libvichrelka.a is machine code for x86-64 with the System V ABI and 64-bit pointers; this is another machine"
#endif

#include <stddef.h>
#include <stdint.h>

#ifdef __cplusplus
extern "C" {
#endif

/* The version. From 0.2.0 on the second number goes up with whatever adds a call, or changes what a call takes,
   answers or leaves, a byte form or a size. The third goes up with any other change. */
#define VICHRELKA_VERSION "0.7.0"
#define VICHRELKA_VERSION_MAJOR 0
#define VICHRELKA_VERSION_MINOR 7
#define VICHRELKA_VERSION_PATCH 0

/* At every call: warn where its answer is dropped. Empty for a compiler that has no word for that. */
#if (defined(__cplusplus) && __cplusplus >= 201703L) || (defined(__STDC_VERSION__) && __STDC_VERSION__ >= 202311L)
#define VICHRELKA_NODISCARD [[nodiscard]]
#elif defined(__GNUC__) || defined(__clang__)
#define VICHRELKA_NODISCARD __attribute__((warn_unused_result))
#else
#define VICHRELKA_NODISCARD
#endif

/* The most bytes that a DHCP message may have. */
#define VICHRELKA_MESSAGE_LIMIT 2048

/* The most bytes that a name has in wire form, its last zero byte included. */
#define VICHRELKA_NAME_LIMIT 255

/* The most bytes that a name has in text, its last dot included. */
#define VICHRELKA_NAME_TEXT_LIMIT 254

/* The bytes of a DHCID: two of identifier type, one of digest type, 32 of SHA-256. */
#define VICHRELKA_DHCID_LEN 35

/* The most bytes that a listing may have. */
#define VICHRELKA_LISTING_LIMIT 65536

/* The names that a table has room for, the bytes of a name's slot, and the bytes of a table. */
#define VICHRELKA_TABLE_NAMES 64
#define VICHRELKA_SLOT_LEN 312
#define VICHRELKA_TABLE_LEN (VICHRELKA_TABLE_NAMES * VICHRELKA_SLOT_LEN)

/* Where the fields of a slot begin; its first byte is the name's length. See "The table of names". */
#define VICHRELKA_SLOT_NAME 1
#define VICHRELKA_SLOT_FLAGS 256
#define VICHRELKA_SLOT_A 257
#define VICHRELKA_SLOT_AAAA 261
#define VICHRELKA_SLOT_DHCID 277

/* The most bytes that a table is as a listing: 883 for each name. So much output is always enough. */
#define VICHRELKA_WRITTEN_LIMIT (VICHRELKA_TABLE_NAMES * 883)

/* The bytes of a block of the book of names, and the most bytes that a tidied book has: a block for each name. */
#define VICHRELKA_BLOCK_LEN 512
#define VICHRELKA_TIDIED_LIMIT (VICHRELKA_TABLE_NAMES * VICHRELKA_BLOCK_LEN)

/* The addresses that a reverse side has room for, the bytes of an address's slot, and the bytes of a reverse side. */
#define VICHRELKA_REVERSE_NAMES 128
#define VICHRELKA_REVERSE_SLOT_LEN 273
#define VICHRELKA_REVERSE_LEN (VICHRELKA_REVERSE_NAMES * VICHRELKA_REVERSE_SLOT_LEN)

/* Where the fields of its slot begin; the first byte is the family. See "The reverse side". */
#define VICHRELKA_REVERSE_ADDRESS 1
#define VICHRELKA_REVERSE_NAME_LEN 17
#define VICHRELKA_REVERSE_NAME 18

/* The most bytes that a PTR name has. */
#define VICHRELKA_PTR_LIMIT 74

/* The most bytes that an UPDATE message has, and the fewest that an answer to one has: DNS's header. */
#define VICHRELKA_UPDATE_LIMIT 1401
#define VICHRELKA_UPDATE_ANSWER_MIN 12

/* The numbers of the refusals. A level of a DHCPv6 message is a relay's message, or the client's message, which is
   inside them all. An entry of a listing is a line, or several lines that parentheses hold together. */
enum vichrelka_refused {
    /* the message has fewer than 240 bytes (DHCPv4) or 4 (DHCPv6), or more than VICHRELKA_MESSAGE_LIMIT */
    VICHRELKA_REFUSED_MESSAGE_LENGTH = 1,
    /* DHCPv4: op is not 1, or the magic cookie is not there */
    VICHRELKA_REFUSED_NOT_BOOTREQUEST = 2,
    /* DHCPv4: hlen is over 16 */
    VICHRELKA_REFUSED_HARDWARE_ADDRESS_LENGTH = 3,
    /* an option runs past the end, or DHCPv4 options have no End; a DHCPv6 level is empty, is shorter than its
       header, or is not just filled by its options; or a relay has no Relay Message option (9) */
    VICHRELKA_REFUSED_OPTIONS_MALFORMED = 4,
    /* an option that matters is there twice: DHCPv4 52, 53, 61, 81; DHCPv6 9 in a relay, 1 or 39 in the client's
       message */
    VICHRELKA_REFUSED_OPTION_REPEATED = 5,
    /* DHCPv4: Option Overload (52) is there */
    VICHRELKA_REFUSED_OPTION_OVERLOAD = 6,
    /* DHCPv4: option 53 is absent, or not just the byte 3, DHCPREQUEST; DHCPv6: a level is not a Request, Renew,
       Rebind or Relay-forward */
    VICHRELKA_REFUSED_NOT_A_REQUEST = 7,
    /* DHCPv4: option 61 has fewer than 2 bytes, or is absent and hlen is 0; DHCPv6: option 1 is absent, or does not
       have 3 to 130 bytes */
    VICHRELKA_REFUSED_NO_IDENTIFIER = 8,
    /* no name can be used: the site's is not proper, and the client's is not proper either or is not asked for; in
       add, remove, clear, find, the two calls on names in text, the block of a name, a lease and its end: the name
       that was given is not proper; in an UPDATE message: the name or the zone is not proper, or the zone is not the
       name's last labels */
    VICHRELKA_REFUSED_NO_PROPER_NAME = 9,
    /* DHCPv6: there is a ninth relay; no more than eight may be around the client's message */
    VICHRELKA_REFUSED_TOO_MANY_RELAYS = 11,
    /* the family is not 4 or 6, or the setting or the policy is not 0 or 1 */
    VICHRELKA_REFUSED_UNKNOWN_SETTING = 12,
    /* there is less room for the output, or for the table in a load or a replay, than what is to be written */
    VICHRELKA_REFUSED_OUTPUT_SHORT = 13,
    /* identifier and name have more than 4,096 bytes together: a number of the rules that no message leads to */
    VICHRELKA_REFUSED_HASH_INPUT_LONG = 14,
    /* a DHCID does not have VICHRELKA_DHCID_LEN bytes, identifier type 0, 1 or 2, and digest type 1 */
    VICHRELKA_REFUSED_NOT_A_DHCID = 15,
    /* an address does not have 4 bytes (family 4) or 16 (family 6) */
    VICHRELKA_REFUSED_ADDRESS_LENGTH = 16,
    /* the listing has more than VICHRELKA_LISTING_LIMIT bytes */
    VICHRELKA_REFUSED_LISTING_LONG = 17,
    /* an entry has a byte other than tab, line end and 32 to 126 (in a comment too), a `(` inside parentheses, a
       `)` outside them, or a `(` that is never closed */
    VICHRELKA_REFUSED_ENTRY_SHAPE = 20,
    /* an entry does not begin with its owner (a blank or a `(` is first), or its owner is not a proper name: labels
       of 1 to 63 letters, digits, hyphens and underscores, each with a dot after it, 254 characters at most */
    VICHRELKA_REFUSED_ENTRY_OWNER = 21,
    /* after the owner and at most one IN, an entry does not have A, AAAA or DHCID (upper or lower case, IN too) */
    VICHRELKA_REFUSED_ENTRY_TYPE = 22,
    /* an entry's data are not those of its type, or words follow them */
    VICHRELKA_REFUSED_ENTRY_DATA = 24,
    /* the name is held by a client with another DHCID */
    VICHRELKA_REFUSED_HELD_BY_ANOTHER = 30,
    /* the name has no DHCID: it is kept by hand, and no client gets it */
    VICHRELKA_REFUSED_KEPT_BY_HAND = 31,
    /* the name is new and the table has VICHRELKA_TABLE_NAMES names; or a listing to load has more names than that */
    VICHRELKA_REFUSED_TABLE_FULL = 32,
    /* the name is not in the table */
    VICHRELKA_REFUSED_NAME_NOT_HELD = 33,
    /* the name has no address of that family, or another one */
    VICHRELKA_REFUSED_ADDRESS_DIFFERS = 34,
    /* a listing that is loaded has two records of one type for one name, whether they are the same or not */
    VICHRELKA_REFUSED_RECORD_REPEATED = 35,
    /* the table is not VICHRELKA_TABLE_LEN bytes, or they are not those of a table (all zeros are): see "The table
       of names"; or a book has more than VICHRELKA_TABLE_NAMES names after some block; or, in a lease and its end, the
       reverse side is not VICHRELKA_REVERSE_LEN bytes, or they are not those of one (all zeros are) */
    VICHRELKA_REFUSED_TABLE_NOT_SOUND = 40,
    /* the last 32 bytes of a block are not the SHA-256 of its first 480: see "The book of names" */
    VICHRELKA_REFUSED_WRONG_CHECK = 42,
    /* a block whose check is right has another number than its place in the book, a kind other than 0 and 1, a field
       that is not one, a byte that should be zero, or says of a name that it is gone which is not there */
    VICHRELKA_REFUSED_WRONG_FIELD = 43,
    /* the length of a book is not a multiple of VICHRELKA_BLOCK_LEN */
    VICHRELKA_REFUSED_BLOCK_LENGTH = 44,
    /* the reverse side has VICHRELKA_REVERSE_NAMES addresses, and that of this lease is not among them: see "The
       reverse side" for how to make room */
    VICHRELKA_REFUSED_REVERSE_FULL = 46,
    /* the bytes are not a server's answer to this UPDATE message: fewer than VICHRELKA_UPDATE_ANSWER_MIN, no response,
       no UPDATE, or another message's number */
    VICHRELKA_REFUSED_NOT_THE_ANSWER = 47,
    /* the server's answer has a code other than those of enum vichrelka_code: see there for where it is */
    VICHRELKA_REFUSED_ANOTHER_CODE = 48
};

/* The family of a DHCP message, and that of an address. */
enum vichrelka_family {
    VICHRELKA_IPV4 = 4,
    VICHRELKA_IPV6 = 6
};

/* Whose name a request gets: the site's for every client; or the client's if it is proper and asked for, and else
   the site's. */
enum vichrelka_setting {
    VICHRELKA_SITE_ONLY = 0,
    VICHRELKA_CLIENT_FIRST = 1
};

/* Who gets a name that another client holds. */
enum vichrelka_policy {
    VICHRELKA_FIRST_WINS = 0,
    VICHRELKA_LATEST_WINS = 1
};

/* Where a chosen name is: in the message, or in the site's name. */
enum vichrelka_source {
    VICHRELKA_SOURCE_MESSAGE = 0,
    VICHRELKA_SOURCE_SITE = 1
};

/* What a name server answered to an UPDATE message: the values of vichrelka_update_answer. "Messages for a name
   server" says what to do on each. Any other code is refusal 48: it is the low four bits of the fourth byte of the
   server's message, and RFC 2136, 2.2, says what it means (5: the server does not let you; 9: it does not serve the
   zone). */
enum vichrelka_code {
    VICHRELKA_CODE_DONE = 0,        /* NOERROR: the message was carried out; after the others nothing was changed */
    VICHRELKA_CODE_NAME_IN_USE = 6, /* YXDOMAIN: a name that should not be in use is */
    VICHRELKA_CODE_SET_STANDS = 7,  /* YXRRSET: a record set that should not be there is */
    VICHRELKA_CODE_NO_SUCH_SET = 8  /* NXRRSET: a record set that should be there, and be just this, is not */
};

/* The number of the refusal; 0 if the call was accepted. */
static inline uint32_t vichrelka_refusal(uint64_t answer)
{
    return (uint32_t)(answer & 0xffffffffu);
}

/* The value of an accepted call, which its comment names; 0 if it was refused. */
static inline uint32_t vichrelka_value(uint64_t answer)
{
    return vichrelka_refusal(answer) == 0 ? (uint32_t)(answer >> 32) : 0;
}

/* The offset of what was refused: the first byte of a listing's first faulty entry. It is 0 for every other
   refusal, and if the call was accepted. */
static inline uint32_t vichrelka_place(uint64_t answer)
{
    return vichrelka_refusal(answer) == 0 ? 0 : (uint32_t)(answer >> 32);
}

/* The refusal in a line, for a log: docs/REFUSALS.md has what to do. "accepted" for 0, and "unknown refusal" for a
   number that no call gives. */
static inline const char *vichrelka_refusal_text(uint32_t number)
{
    /* tools/refusal_texts made this of docs/REFUSALS.md */
    switch (number) {
    case 0: return "accepted";
    case VICHRELKA_REFUSED_MESSAGE_LENGTH: return "the message is too short or too long";
    case VICHRELKA_REFUSED_NOT_BOOTREQUEST: return "the message is not a BOOTREQUEST with DHCP's magic cookie";
    case VICHRELKA_REFUSED_HARDWARE_ADDRESS_LENGTH: return "the hardware address is longer than its field";
    case VICHRELKA_REFUSED_OPTIONS_MALFORMED: return "the message's options are malformed";
    case VICHRELKA_REFUSED_OPTION_REPEATED: return "an option that matters is there twice";
    case VICHRELKA_REFUSED_OPTION_OVERLOAD: return "the message has Option Overload (52)";
    case VICHRELKA_REFUSED_NOT_A_REQUEST: return "the message is not a request";
    case VICHRELKA_REFUSED_NO_IDENTIFIER: return "the message has no client identifier that can be used";
    case VICHRELKA_REFUSED_NO_PROPER_NAME: return "there is no proper name";
    case VICHRELKA_REFUSED_TOO_MANY_RELAYS: return "the message has more than eight relays";
    case VICHRELKA_REFUSED_UNKNOWN_SETTING: return "the family, the setting or the policy is unknown";
    case VICHRELKA_REFUSED_OUTPUT_SHORT: return "there is too little room for what is to be written";
    case VICHRELKA_REFUSED_HASH_INPUT_LONG: return "identifier and name are too long together";
    case VICHRELKA_REFUSED_NOT_A_DHCID: return "the bytes are not a DHCID";
    case VICHRELKA_REFUSED_ADDRESS_LENGTH: return "the address does not have its family's length";
    case VICHRELKA_REFUSED_LISTING_LONG: return "the listing is too long";
    case VICHRELKA_REFUSED_ENTRY_SHAPE: return "a byte of the entry is not allowed, or its parentheses do not match";
    case VICHRELKA_REFUSED_ENTRY_OWNER: return "the entry does not begin with a proper owner";
    case VICHRELKA_REFUSED_ENTRY_TYPE: return "the entry's class or type is missing or unknown";
    case VICHRELKA_REFUSED_ENTRY_DATA: return "the entry's data are not those of its type, or words follow them";
    case VICHRELKA_REFUSED_HELD_BY_ANOTHER: return "another client holds the name";
    case VICHRELKA_REFUSED_KEPT_BY_HAND: return "the name is kept by hand";
    case VICHRELKA_REFUSED_TABLE_FULL: return "the table has no room for another name";
    case VICHRELKA_REFUSED_NAME_NOT_HELD: return "the name is not in the table";
    case VICHRELKA_REFUSED_ADDRESS_DIFFERS: return "the name does not have this address";
    case VICHRELKA_REFUSED_RECORD_REPEATED: return "the listing has two records of one type for a name";
    case VICHRELKA_REFUSED_TABLE_NOT_SOUND: return "a table or reverse side is unsound, or a book has too many names";
    case VICHRELKA_REFUSED_WRONG_CHECK: return "a block's check is wrong";
    case VICHRELKA_REFUSED_WRONG_FIELD: return "a block's number or one of its fields is wrong";
    case VICHRELKA_REFUSED_BLOCK_LENGTH: return "the bytes are not whole blocks";
    case VICHRELKA_REFUSED_REVERSE_FULL: return "the reverse side has no room for another address";
    case VICHRELKA_REFUSED_NOT_THE_ANSWER: return "the bytes are not a server's answer to this message";
    case VICHRELKA_REFUSED_ANOTHER_CODE: return "the server's answer has another code";
    default: return "unknown refusal";
    }
}

/* The value of vichrelka_name taken apart: the source, an enum vichrelka_source (bits 30 and 31); the offset there
   at which the name starts (bits 8 to 29); the bytes of the name, its last zero byte included (bits 0 to 7). All
   are 0 if the call was refused. */
static inline uint32_t vichrelka_name_source(uint64_t answer)
{
    return vichrelka_value(answer) >> 30;
}

static inline uint32_t vichrelka_name_start(uint64_t answer)
{
    return vichrelka_value(answer) >> 8 & 0x3fffffu;
}

static inline uint32_t vichrelka_name_len(uint64_t answer)
{
    return vichrelka_value(answer) & 0xffu;
}

/*
 * Choose the name of a DHCP request. Its value says where that name is, uncopied, with its letters in either case:
 *
 *     const uint8_t *name = vichrelka_name_source(answer) == VICHRELKA_SOURCE_SITE ? site : message;
 *     name += vichrelka_name_start(answer);
 *
 * Family 4 (VICHRELKA_IPV4) is a DHCPv4 message. Family 6 (VICHRELKA_IPV6) is a DHCPv6 message, which may be inside
 * up to eight relays' messages. Setting 1 (VICHRELKA_CLIENT_FIRST) prefers a proper name of the client to the
 * site's; setting 0 (VICHRELKA_SITE_ONLY) takes the site's for every client. The client's name is that of DHCPv4
 * option 81 if flag E is set there, or that of DHCPv6 option 39. A proper name is in wire form: one or more labels
 * of 1 to 63 letters, digits, hyphens and underscores, each after a byte with its length, and a zero byte, which is
 * the last; it has no more than 255 bytes.
 *
 * Refusals, in order, with place 0: 12; the message's; 9. The message's are 1, 2, 3, 4, 5, 6, 7 and 8 for DHCPv4.
 * For DHCPv6 they are 1; then, level by level from the outermost on, 4 if it is empty, 7, 11, 4 for its header and
 * its options, and in a relay 4 for no option 9 and 5 for two; then, in the client's message, 5 and 8. Nothing is
 * written, whatever the answer.
 */
VICHRELKA_NODISCARD
uint64_t vichrelka_name(uint32_t family, uint32_t setting,
                        const uint8_t *message, size_t message_len,
                        const uint8_t *site, size_t site_len);

/*
 * Compute the DHCID of a DHCP request (RFC 4701), for the name that vichrelka_name chooses. Its value is
 * VICHRELKA_DHCID_LEN: so many bytes are written, the first ones of out, and those behind them stay as they are.
 *
 * A DHCID is the type of the client's identifier in two bytes, the byte 1, and the SHA-256 of the identifier
 * followed by the name in lower case. The identifier is
 *
 *     type 2   the DUID: the data of DHCPv6 option 1, or those of DHCPv4 option 61 behind the first five bytes, if the
 *              first is 255 and there are 8 to 135 of them (RFC 4361)
 *     type 1   the data of any other DHCPv4 option 61
 *     type 0   htype and the first hlen bytes of chaddr, of a DHCPv4 message without option 61
 *
 * Refusals, in order, with place 0: those of vichrelka_name; 14, which no message leads to; 13 for fewer than
 * VICHRELKA_DHCID_LEN bytes of out. If it is refused, nothing is written.
 */
VICHRELKA_NODISCARD
uint64_t vichrelka_dhcid(uint32_t family, uint32_t setting,
                         const uint8_t *message, size_t message_len,
                         const uint8_t *site, size_t site_len,
                         uint8_t *out, size_t out_len);

/*
 * Read a name in text into canonical wire form: lower case, as names are compared and stored. Its value is the
 * number of bytes written, one more than the text has: they are the first ones of out, and those behind them stay
 * as they are. VICHRELKA_NAME_LIMIT bytes of out are always enough.
 *
 * The text is an owner as a listing spells it: labels of 1 to 63 letters, digits, hyphens and underscores, in
 * either case, each with a dot after it, the last one too; 254 bytes at most. Nothing is trimmed, and no zero byte
 * ends it: `a` is refused, and so are no bytes and a dot alone.
 *
 * Refusals, in order, with place 0: 9; 13 for fewer bytes of out than the name has. If it is refused, nothing is
 * written.
 */
VICHRELKA_NODISCARD
uint64_t vichrelka_name_from_text(const uint8_t *text, size_t text_len, uint8_t *out, size_t out_len);

/*
 * Write a name in text, in lower case, as a listing is written: the other way of vichrelka_name_from_text. The name
 * is a proper one in wire form, in either case. Its value is the number of bytes written, one fewer than the name
 * has: they are the first ones of out, with the last dot, and those behind them stay as they are. No zero byte is
 * written behind them. VICHRELKA_NAME_TEXT_LIMIT bytes of out are always enough.
 *
 * Refusals, in order, with place 0: 9; 13 for fewer bytes of out than the text has. If it is refused, nothing is
 * written.
 */
VICHRELKA_NODISCARD
uint64_t vichrelka_name_to_text(const uint8_t *name, size_t name_len, uint8_t *out, size_t out_len);

/*
 * Check a listing. Its value is the number of its records, which is 0 for a listing without any, the empty one
 * included.
 *
 * An entry without words is not a record: empty, blank, a comment from `;` to the line's end. Any other is a record
 *
 *     owner [IN] A      192.0.2.7                       four decimal numbers without leading zeros
 *     owner [IN] AAAA   2001:db8:0:0:0:0:0:7            eight groups of 1 to 4 hexadecimal digits; no `::`
 *     owner [IN] DHCID  AAABxLmlskllE0MVjd57zHcWm...    base64, 48 characters in any number of words
 *     owner [IN] DHCID  \# 35 000001C4B9A5B249...       RFC 3597, 70 hexadecimal digits, in words of an even number
 *
 * and begins with the first byte of its owner. A DHCID has identifier type 0, 1 or 2 and digest type 1. Blanks,
 * tabs, comments and parentheses separate words; inside parentheses, which do not nest, line ends do so too.
 *
 * Refusals, in order: 17, with place 0, whatever the text says. Then the entries are judged from the first on, and
 * the check stops at one with a fault: its place is the offset at which that entry begins, its number the lowest
 * that fits, of 20, 21, 22 and 24. Nothing is written, whatever the answer.
 */
VICHRELKA_NODISCARD
uint64_t vichrelka_listing_check(const uint8_t *text, size_t text_len);

/*
 * The table of names: up to VICHRELKA_TABLE_NAMES names in the order in which they came. A name has an A, an AAAA
 * or a DHCID, or more than one of these, but none of them twice. The table is VICHRELKA_TABLE_LEN bytes of yours.
 * All zeros is the empty table. The bytes may be stored, copied and compared as they are. Every call but the load
 * and the replay tests that they are sound, and each leaves them so:
 *
 *     a slot       the name's wire length (1 byte), the name (255), flags (1), A (4), AAAA (16), DHCID (35)
 *     flags        1 A, 2 AAAA, 4 DHCID; at least one of them
 *     the name     a proper one in wire form, in lower case; no name is there twice
 *     the DHCID    VICHRELKA_DHCID_LEN bytes, identifier type 0, 1 or 2, digest type 1
 *     zeros        whatever is not used: bytes behind the name, absent fields, slots behind the last name
 *
 * All zeros are sound: a store that was lost and comes back as zeros is an empty table to every call, and 40 does
 * not tell the one from the other. A host that has to know keeps a mark of its own beside the table.
 *
 * A name without a DHCID is kept by hand, and no client gets it. A name with a DHCID and no address is sound too.
 * Add and remove make none, but a listing that was loaded may have one, and so may a table that a version before
 * 0.4.0 left. Its client holds it as any other name: for another client an add under VICHRELKA_FIRST_WINS is 30. A
 * remove finds no address there, which is 34; a clear takes the name out. Names are given in wire form, in either
 * case, and are stored in lower case.
 *
 * Add, remove and clear have place 0 in every refusal, and then have changed nothing. They write to the table
 * alone.
 */

/*
 * Give the name to the client with this DHCID, with this address of the family 4 (4 bytes) or 6 (16 bytes). Its
 * value is
 *
 *     0   the name was not in the table: it is now the last, with this DHCID and this address
 *     1   the client holds the name: its address of this family is now this one, that of the other family stays
 *     2   another client held the name, and the policy is VICHRELKA_LATEST_WINS: DHCID and address of this family are
 *         now these, the other family's is deleted; the name keeps its place in the order
 *
 * Refusals, in order: 12 (family, policy), 40, 9, 15, 16; then 32, 31, or 30 under VICHRELKA_FIRST_WINS, of which
 * only one can hold.
 */
VICHRELKA_NODISCARD
uint64_t vichrelka_table_add(uint8_t *table, size_t table_len,
                             const uint8_t *name, size_t name_len,
                             const uint8_t *dhcid, size_t dhcid_len, uint32_t family,
                             const uint8_t *address, size_t address_len, uint32_t policy);

/*
 * Delete this address of the name, which the client with this DHCID holds. Its value is 0. If the name has an
 * address of the other family, that one stays, and the name keeps its DHCID and its slot. If it has none, the name
 * goes with its last address, and its DHCID too (RFC 4703, section 5.5): any client may get the name then. Later
 * names move up by a slot, and the slot behind the last name becomes zeros. So an index or an offset into the table
 * that you kept from before is old: ask vichrelka_table_find, which answers 33 if the name went.
 *
 * A message that releases a lease is not a request, and vichrelka_dhcid refuses it with 7: keep name and DHCID with
 * the lease. Copy a name, a DHCID or an address out of the table before you give it to this call: the table is
 * written, and overlaps nothing else that is lent.
 *
 * Refusals, in order: 12 (family), 40, 9, 15, 16, 33, 31, 30, 34.
 */
VICHRELKA_NODISCARD
uint64_t vichrelka_table_remove(uint8_t *table, size_t table_len,
                                const uint8_t *name, size_t name_len,
                                const uint8_t *dhcid, size_t dhcid_len, uint32_t family,
                                const uint8_t *address, size_t address_len);

/*
 * Take the name out of the table, whoever holds it and however it is kept. Its value is 0. Later names move up by a
 * slot. Copy a name out of its slot before you give it to this call: the table is written, and overlaps nothing
 * else that is lent.
 *
 * Refusals, in order: 40, 9, 33.
 */
VICHRELKA_NODISCARD
uint64_t vichrelka_table_clear(uint8_t *table, size_t table_len, const uint8_t *name, size_t name_len);

/*
 * Find a name in the table. Its value is the index of its slot, from 0 on: the slot is the VICHRELKA_SLOT_LEN bytes
 * from index * VICHRELKA_SLOT_LEN on. The value is 0 for the first slot, and for a refusal too: ask
 * vichrelka_refusal first.
 *
 * Refusals, in order, with place 0: 40, 9, 33. Nothing is written, whatever the answer.
 */
VICHRELKA_NODISCARD
uint64_t vichrelka_table_find(const uint8_t *table, size_t table_len, const uint8_t *name, size_t name_len);

/*
 * Count the names of the table. Its value is their number, 0 for the empty table. The names are in the slots before
 * that index.
 *
 * Refusals, with place 0: 40. Nothing is written, whatever the answer.
 */
VICHRELKA_NODISCARD
uint64_t vichrelka_table_count(const uint8_t *table, size_t table_len);

/*
 * Write the table as a listing, at the beginning of out. Its value is the number of bytes written, 0 for the empty
 * table; the bytes of out behind them stay as they are. VICHRELKA_WRITTEN_LIMIT bytes of out are always enough.
 *
 * The names come in their order, each with its A, its AAAA and its DHCID, as far as it has them, a record on a
 * line:
 *
 *     client.example.com. A 192.0.2.40
 *     client.example.com. AAAA 2001:0db8:0000:0000:0000:0000:0000:0028
 *     client.example.com. DHCID AAABxLmlskllE0MVjd57zHcWmEH3pCQ6VytcKD//7es/deY=
 *
 * What is written is a listing of just these records, and vichrelka_table_load makes the same table of it, byte for
 * byte.
 *
 * Refusals, in order, with place 0: 40; 13 for fewer bytes of out than the listing has. If it is refused, nothing
 * is written.
 */
VICHRELKA_NODISCARD
uint64_t vichrelka_table_write(const uint8_t *table, size_t table_len, uint8_t *out, size_t out_len);

/*
 * Load a listing: replace the first VICHRELKA_TABLE_LEN bytes of table, whatever they were, by the table of its
 * records, the names in the order of their first records. Its value is 0. The former bytes are not looked at, and
 * need not be a table's. Lend just VICHRELKA_TABLE_LEN bytes: of a longer area those behind stay as they are, and
 * the other calls answer 40 to such an area.
 *
 * Refusals, in order: those of vichrelka_listing_check, with their places; then, with place 0, 35, 32 for more than
 * VICHRELKA_TABLE_NAMES names, and 13 for fewer than VICHRELKA_TABLE_LEN bytes of table. If it is refused, the
 * table is as it was.
 */
VICHRELKA_NODISCARD
uint64_t vichrelka_table_load(uint8_t *table, size_t table_len, const uint8_t *text, size_t text_len);

/*
 * The book of names: what happened to the table, so that it outlasts a restart. It is blocks of VICHRELKA_BLOCK_LEN
 * bytes, which you store one behind the other:
 *
 *     number       its place in the book, from 0 on (4 bytes, the highest first)
 *     kind         1 the name as it now stands, 0 the name is gone (1 byte)
 *     slot         that of the table; for kind 0 the name with flags 0 (VICHRELKA_SLOT_LEN bytes, from byte 5 on)
 *     zeros        up to byte 479
 *     check        the SHA-256 of the 480 bytes before it (32 bytes)
 *
 * A replay goes through the blocks from the first on. A name of kind 1 that is in the table gets this slot and keeps
 * its place; one that is not becomes the last. A name of kind 0 has to be there and goes, and later ones move up. A
 * book of no bytes is the empty table.
 *
 * How to keep one:
 *
 *   - After each accepted add, remove and clear append that name's block, under the number of blocks that the book
 *     has so far, and tell the client only when it is stored. Append nothing after a refused call: the block of a
 *     name that is not in the table and was not there before is one that no replay takes.
 *   - If several names change at once, store each block before the next one is written: the rule for a restart counts
 *     on at most one block that is not whole. If a block could not be stored, store no later one before it, and write
 *     the next one where the stored ones end, over what is torn.
 *   - After a load, and for a new table, begin a book anew: the blocks of the table's names in their order, under 0,
 *     1, 2 and so on; none for an empty table. Write it into a second area, and switch to that as to a tidied book.
 *   - At a restart lend what was stored, without what is only erased behind it, and ask vichrelka_book_sound how many
 *     blocks are sound. Cut off only what a write that was cut can leave behind them: fewer than VICHRELKA_BLOCK_LEN
 *     bytes, or just one whole block for which a replay of the sound ones with it answers 42. Then replay the sound
 *     ones. If that block is 43 or 40, or if there is more behind them, cut nothing and replay nothing, but let a
 *     person decide: a block can be whole and right and not for this gateway, with a name too many, or of a kind that
 *     a later version writes.
 *   - If no block is sound, look whether the bytes are a book at all before you cut any: 512 bytes of something else
 *     look like a first block whose write was cut.
 *   - Say what was cut off. A last block that was stored whole and damaged later looks the same as a write that was
 *     cut, so a step that a client was told of may be the one that is lost.
 *   - Now and then tidy the book into a second area, and then switch to that one. Both replay to the same table, so a
 *     power cut in between does no harm. Store the length with the switch, or erase what is behind: old blocks there
 *     have right checks, and one whose number fits would be taken for the next block.
 *   - A book has to be lent whole: tidy it before it outgrows the memory that you have for it.
 *
 * That stored bytes come back as they were written is not for these calls to promise. The check tells if they do
 * not, as surely as SHA-256 does. It does not tell that whole blocks are missing at the end, that the bytes are an
 * older copy, or who wrote them: these are books, and the check is no signature.
 */

/*
 * Write the block of a name, as the table has it, under this number, at the beginning of out. Its value is
 * VICHRELKA_BLOCK_LEN: so many bytes are written, and those behind them stay as they are. The block of a name that
 * is not in the table says that it is gone: a replay takes that one only where the name was there before, so append
 * a block after an accepted step alone.
 *
 * Refusals, in order, with place 0: 40, 9; 13 for fewer than VICHRELKA_BLOCK_LEN bytes of out. If it is refused,
 * nothing is written.
 */
VICHRELKA_NODISCARD
uint64_t vichrelka_book_block(const uint8_t *table, size_t table_len, const uint8_t *name, size_t name_len,
                              uint32_t number, uint8_t *out, size_t out_len);

/*
 * Replay a book: replace the first VICHRELKA_TABLE_LEN bytes of table, whatever they were, by the table that its
 * blocks give. Its value is 0. The former bytes are not looked at, and need not be a table's. Lend just
 * VICHRELKA_TABLE_LEN bytes: of a longer area those behind stay as they are, and the other calls answer 40 to such
 * an area.
 *
 * Refusals, in order, with place 0: 44; for the first bad block 42, or 43 if its check is right; 40 if after some
 * block more than VICHRELKA_TABLE_NAMES names are there, also if a later one takes a name out again; 13 for fewer
 * than VICHRELKA_TABLE_LEN bytes of table. A bad block comes before 40 wherever it is in the book: which names are
 * there is judged with all of them kept, also those that a table has no room for. If it is refused, the table is as
 * it was.
 */
VICHRELKA_NODISCARD
uint64_t vichrelka_book_replay(uint8_t *table, size_t table_len, const uint8_t *book, size_t book_len);

/*
 * Tidy a book: write, at the beginning of out, one block for each name of the table that it replays to, in order,
 * under 0, 1, 2 and so on. Its value is the number of bytes written, 0 if no name is left; the bytes of out behind
 * them stay as they are. VICHRELKA_TIDIED_LIMIT bytes of out are always enough. What is written replays to the same
 * table, byte for byte, and no shorter book does.
 *
 * Refusals, in order, with place 0: those of vichrelka_book_replay, but 13 for fewer bytes of out than the tidied
 * book has. If it is refused, nothing is written.
 */
VICHRELKA_NODISCARD
uint64_t vichrelka_book_tidy(const uint8_t *book, size_t book_len, uint8_t *out, size_t out_len);

/*
 * Count the sound blocks of a book, also of a damaged one. Its value is the greatest number of blocks, from the first
 * on, that are a book which a replay takes into VICHRELKA_TABLE_LEN bytes of table. Bytes behind the last whole block
 * are not looked at. If 2^32 blocks or more are sound, the value is 2^32 - 1.
 *
 * There is no refusal. Nothing is written.
 */
VICHRELKA_NODISCARD
uint64_t vichrelka_book_sound(const uint8_t *book, size_t book_len);

/*
 * Write the PTR name of an address, in wire form and lower case, at the beginning of out: the name under which a name
 * server looks up who has the address. Its value is the number of bytes written, 22 to 30 for family 4 and 74 for
 * family 6; the bytes of out behind them stay as they are. VICHRELKA_PTR_LIMIT bytes of out are always enough.
 *
 *     192.0.2.31         31.2.0.192.in-addr.arpa.       the bytes from the last to the first, in decimal
 *     2001:db8::7        7.0.0.0.0.0.0.0.0.0.0.0.0.0.0.0.0.0.0.0.0.0.0.0.8.b.d.0.1.0.0.2.ip6.arpa.
 *                                                       the half bytes from the last to the first, a digit each
 *
 * vichrelka_name_to_text writes it in text.
 *
 * Refusals, in order, with place 0: 12 (family), 16; 13 for fewer bytes of out than the name has. If it is refused,
 * nothing is written.
 */
VICHRELKA_NODISCARD
uint64_t vichrelka_ptr_name(uint32_t family, const uint8_t *address, size_t address_len, uint8_t *out, size_t out_len);

/*
 * The reverse side: for each address one name behind it, up to VICHRELKA_REVERSE_NAMES addresses in the order in
 * which they came. It is VICHRELKA_REVERSE_LEN bytes of yours, beside the table. All zeros is the empty one. The
 * bytes may be stored, copied and compared as they are. A lease and its end test that they are sound, and leave them
 * so:
 *
 *     a slot       the family (1 byte), the address (16), the name's wire length (1), the name (255)
 *     the family   4 or 6
 *     the address  that of family 4 in the first 4 bytes; no address of a family is there twice
 *     the name     a proper one in wire form, in lower case; it may be behind several addresses
 *     zeros        whatever is not used: 12 bytes behind an address of family 4, those behind the name, slots behind
 *                  the last address
 *
 * All zeros are sound here too: a store that was lost and comes back as zeros is an empty reverse side.
 *
 * A lease writes the table first and then the reverse side; its end writes the reverse side first and then the
 * table. So neither of their steps puts a name behind an address that the name does not have. What they leave as it
 * was: the reverse name of a client's former address, when it gets another one, and those of a former client in a
 * takeover. The table's own calls, a load and a replay do not know the reverse side and leave it as it is.
 *
 * After a power cut. A call works on your memory, and what was only there is gone. What outlasts a cut is what you
 * stored, so store in the same order: for a lease the table's change first and then the reverse side, for its end
 * the reverse side first and then the table's change, each whole and on the disk before the next (the table's change
 * as a block of the book; the reverse side under another name, then renamed). If the second could not be stored, do
 * no other step on these two sides before it is. A cut then leaves the state before the call, between the two steps,
 * or after it. Run the same call again on what you read back, before any other call on these two sides, and it ends
 * in the state of an uncut run, both sides, however often it is cut:
 *
 *     a lease      The client asks again, since you tell it only when both are stored. Keep its request if other calls
 *                  may come first. The second run answers 1 where an uncut one answers 0 or 2, once a step was stored.
 *     its end      Nobody asks again: keep it, from before the call until both are stored, and run it after a restart.
 *                  The second run answers 0; or 33 or 34 if both had been stored. Take these as done then.
 *
 * To ask whether stored bytes are a sound table and a sound reverse side, end a lease of a name of no bytes: it is
 * 40 if one of them is not, and 9 if both are. Do not lend memory that keeps its bytes without power: a call may be
 * cut in the middle of a slot there. docs/POWER.md goes through all the cuts.
 *
 * If a lease is refused with 46, too many reverse names of former addresses, of takeovers and of cleared names are
 * there. Make room: take a new reverse side (zeros), and for each address in the table run the lease of its name
 * again, with copies of the name, the DHCID and the address that are in the slot. Each answers 1 and leaves the
 * table as it is. (A name that is kept by hand has no lease; its address has no reverse name here.) If every name
 * has both an A and an AAAA, that does not help: end a lease first, the client's former one or one that is over.
 */

/*
 * A lease: give the name to the client with this DHCID, with this address, as vichrelka_table_add does, and then put
 * the name behind the address. Its value is that of the add: 0, 1 or 2. If the address is in the reverse side, this
 * name, in lower case, takes the place of the one behind it; if not, it is now the last. Every other slot stays.
 * Copy a name, a DHCID or an address out of table or reverse side before you give it to this call: both are written.
 *
 * Refusals, in order, with place 0: 12 (family, policy); 40 (the table, or the reverse side); 9, 15, 16; 46; then
 * 32, 31, or 30 under VICHRELKA_FIRST_WINS. If it is refused, both sides are as they were.
 */
VICHRELKA_NODISCARD
uint64_t vichrelka_lease(uint8_t *table, size_t table_len, uint8_t *reverse, size_t reverse_len,
                         const uint8_t *name, size_t name_len,
                         const uint8_t *dhcid, size_t dhcid_len, uint32_t family,
                         const uint8_t *address, size_t address_len, uint32_t policy);

/*
 * An ended lease: take the name from behind the address, if it is this one, and then delete the address as
 * vichrelka_table_remove does. Its value is 0. If another name is behind the address, or none, the reverse side
 * stays as it is. If a reverse name goes, later ones move up by a slot, and the slot behind the last becomes zeros.
 *
 * Refusals, in order, with place 0: 12 (family); 40 (the table, or the reverse side); 9, 15, 16; then the remove's
 * 33, 31, 30, 34. If it is refused, both sides are as they were. After a power cut 33 and 34 may mean that it was
 * done: see above. Copy a name, a DHCID or an address out of table or reverse side before you give it to this call:
 * both are written.
 */
VICHRELKA_NODISCARD
uint64_t vichrelka_lease_end(uint8_t *table, size_t table_len, uint8_t *reverse, size_t reverse_len,
                             const uint8_t *name, size_t name_len,
                             const uint8_t *dhcid, size_t dhcid_len, uint32_t family,
                             const uint8_t *address, size_t address_len);

/*
 * Messages for a name server: UPDATE messages (RFC 2136) that carry an add under VICHRELKA_FIRST_WINS and a remove to
 * the server of the zone. Four calls write them and a fifth reads the server's answer. They need no table, and there
 * is no state between them: sending, receiving, signing (TSIG) and sending again are yours.
 *
 *     vichrelka_update_add_first       if the name is not in use: add the address and the DHCID
 *     vichrelka_update_add_second      if its DHCID is just this: delete its addresses of the family, add this one
 *     vichrelka_update_remove_first    if its DHCID and its address of the family are just these: delete the address
 *     vichrelka_update_remove_second   if its DHCID is just this, and no address is left: delete the DHCID
 *
 * Ask the table first, and send what it accepted. What to do on each code of the answer:
 *
 *     an add       Send the first message. 0: done, the add's value was 0. 6: send the second. 0 is then done, the
 *                  add's value was 1; 8 says that another client holds the name or that it is kept by hand, the add's
 *                  30 or 31.
 *     a remove     Send the first message. 0: send the second, and both 0 (the name is gone) and 7 (an address of the
 *                  other family stands) are done. 8: there is nothing of this client to delete, the remove's 33, 31,
 *                  30 or 34.
 *     no answer    Send the same message again. If only its answer was lost, a first add now gives 6, and its second
 *                  message 0. A first remove now gives 8: if the table accepted that remove, send the second all the
 *                  same. It takes nothing but this client's DHCID, at a name without address. A second remove that is
 *                  sent again may give 8 as well: the name is gone, and it is done.
 *     refused 47   These bytes are not the answer: drop them and wait on.
 *     refused 48   The server did not carry the message out: let a person read the code. A server may refuse names
 *                  that are proper here, such as one with an underscore, or with a hyphen at a label's end.
 *
 * A zone that holds what the table holds, name by name, goes on doing so while every message and every answer arrives,
 * all names are in that zone, and the server keeps to RFC 2136, whatever calls are refused in between (but one: see
 * below). So give a table one zone and one server, and begin with both empty or with the same names. The server's
 * code decides where its zone has what no table has, such as a TXT or a CNAME beside a client's records, or the
 * zone's own records: the table does not see them.
 *
 *   - Keep VICHRELKA_FIRST_WINS. A takeover, a clear, a load and a replay have no message.
 *   - Send nothing for an add that the table refused with 32 (full): the server would take the name.
 *   - Wait for a message's answer before you send the next one, so that they are carried out in the table's order.
 *   - Lifetimes are 3,600 seconds. There is no message for a PTR.
 *   - Take a new number for each message, one that cannot be guessed, so that an answer is that of this message.
 *   - A message of more than 512 bytes goes by TCP (RFC 1035, 4.2), with its length in two bytes before it.
 */

/*
 * Write the first message of an add, at the beginning of out. Its value is the number of bytes written,
 * 81 + zone_len + 3 * name_len + address_len; the bytes of out behind them stay as they are. VICHRELKA_UPDATE_LIMIT
 * bytes of out are always enough.
 *
 * Name and zone are proper names in wire form, in either case, and are written in lower case and without compression.
 * The zone is the name's last labels: the name is the zone itself, or one or more labels before it. Every message
 * number (id) is right. The address is VICHRELKA_IPV4's or VICHRELKA_IPV6's, as in vichrelka_table_add.
 *
 * Refusals, in order, with place 0: 12 (family); 9 for the name, the zone, or a zone that is not the name's last
 * labels; 15, 16; 13 for fewer bytes of out than the message has. If it is refused, nothing is written.
 */
VICHRELKA_NODISCARD
uint64_t vichrelka_update_add_first(uint16_t id, const uint8_t *zone, size_t zone_len,
                                    const uint8_t *name, size_t name_len,
                                    const uint8_t *dhcid, size_t dhcid_len, uint32_t family,
                                    const uint8_t *address, size_t address_len,
                                    uint8_t *out, size_t out_len);

/*
 * Write the second message of an add: for a first one that was answered by VICHRELKA_CODE_NAME_IN_USE. All else is as
 * in vichrelka_update_add_first.
 */
VICHRELKA_NODISCARD
uint64_t vichrelka_update_add_second(uint16_t id, const uint8_t *zone, size_t zone_len,
                                     const uint8_t *name, size_t name_len,
                                     const uint8_t *dhcid, size_t dhcid_len, uint32_t family,
                                     const uint8_t *address, size_t address_len,
                                     uint8_t *out, size_t out_len);

/*
 * Write the first message of a remove. It has 81 + zone_len + 3 * name_len + 2 * address_len bytes. All else is as in
 * vichrelka_update_add_first.
 */
VICHRELKA_NODISCARD
uint64_t vichrelka_update_remove_first(uint16_t id, const uint8_t *zone, size_t zone_len,
                                       const uint8_t *name, size_t name_len,
                                       const uint8_t *dhcid, size_t dhcid_len, uint32_t family,
                                       const uint8_t *address, size_t address_len,
                                       uint8_t *out, size_t out_len);

/*
 * Write the second message of a remove: for a first one that was answered by VICHRELKA_CODE_DONE. It names no address,
 * and has 126 + zone_len + 4 * name_len bytes. All else is as in vichrelka_update_add_first, without 12 and 16.
 */
VICHRELKA_NODISCARD
uint64_t vichrelka_update_remove_second(uint16_t id, const uint8_t *zone, size_t zone_len,
                                        const uint8_t *name, size_t name_len,
                                        const uint8_t *dhcid, size_t dhcid_len,
                                        uint8_t *out, size_t out_len);

/*
 * Read a server's answer to the message with this number. Its value is the code, of enum vichrelka_code. Only the
 * first VICHRELKA_UPDATE_ANSWER_MIN bytes are looked at, and of the flags there only QR, the opcode and the code.
 *
 * Refusals, in order, with place 0: 47 for fewer bytes, QR 0 (no response), an opcode other than 5 (no UPDATE), or
 * another number; 48 for a code that is none of the four. Nothing is written, whatever the answer.
 */
VICHRELKA_NODISCARD
uint64_t vichrelka_update_answer(uint16_t id, const uint8_t *answer, size_t answer_len);

#ifdef __cplusplus
}
#endif

#endif
