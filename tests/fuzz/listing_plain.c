/* The listing check, from document 01 (docs/RULES.md, 6) and the RFCs that it names, in ordinary C. Nothing of crates/ was read for it.
 *
 * It goes another way than bench/load_plain.c: an entry becomes a line with blanks between its words, which the C library then takes apart. */
#include <arpa/inet.h>
#include <ctype.h>
#include <stdbool.h>
#include <string.h>
#include <strings.h>

#include "plain.h"

/* Entries */

/* The entry that begins at `at`, as a line in which everything but words is a blank; where the next one begins, or 0 for a fault of its shape */
static size_t flatten(const uint8_t *text, size_t len, size_t at, char *line)
{
    bool in_comment = false, in_parentheses = false;
    for (; at < len; at++) {
        uint8_t c = text[at];
        char shown = ' ';
        if (c == '\n') {
            if (!in_parentheses)
                break;
            in_comment = false;
        } else if (c != '\t' && (c < ' ' || c > '~')) {
            return 0;
        } else if (!in_comment && c == ';') {
            in_comment = true;
        } else if (!in_comment && (c == '(' || c == ')')) {
            if (in_parentheses == (c == '('))
                return 0;
            in_parentheses = c == '(';
        } else if (!in_comment && c != '\t') {
            shown = (char)c;
        }
        *line++ = shown;
    }
    *line = 0;
    return in_parentheses ? 0 : at + 1;
}

/* The next word; NULL if there is none */
static char *next_word(char **rest)
{
    return strtok_r(NULL, " ", rest);
}

/* Words */

static bool proper_owner(const char *owner)
{
    if (strlen(owner) > 254)
        return false;
    while (*owner) {
        size_t label = strspn(owner, "abcdefghijklmnopqrstuvwxyzABCDEFGHIJKLMNOPQRSTUVWXYZ0123456789-_");
        if (label == 0 || label > 63 || owner[label] != '.')
            return false;
        owner += label + 1;
    }
    return true;
}

static bool is_a(const char *word)
{
    struct in_addr address;
    return inet_pton(AF_INET, word, &address) == 1;
}

/* inet_pton reads `::` and a last part in decimal too. */
static bool is_aaaa(const char *word)
{
    struct in6_addr address;
    return !strstr(word, "::") && !strchr(word, '.') && inet_pton(AF_INET6, word, &address) == 1;
}

static unsigned hex_value(char c) { return (unsigned)(isdigit((unsigned char)c) ? c - '0' : tolower((unsigned char)c) - 'a' + 10); }

/* the first three bytes of 35 that are known to be there */
static bool is_dhcid_head(unsigned high, unsigned low, unsigned digest) { return high == 0 && low <= 2 && digest == 1; }

/* The words behind `\#` */
static bool is_hex_dhcid(char *rest)
{
    char digits[71] = "";
    char *word = next_word(&rest);
    if (!word || strcmp(word, "35") != 0)
        return false;
    while ((word = next_word(&rest))) {
        size_t len = strlen(word);
        if (len % 2 != 0 || len + strlen(digits) > 70)
            return false;
        strcat(digits, word);
    }
    return strlen(digits) == 70 && strspn(digits, "0123456789abcdefABCDEF") == 70 &&
           is_dhcid_head(hex_value(digits[0]) * 16 + hex_value(digits[1]), hex_value(digits[2]) * 16 + hex_value(digits[3]),
                         hex_value(digits[4]) * 16 + hex_value(digits[5]));
}

static bool is_dhcid(char *rest)
{
    static const char ALPHABET[] = "ABCDEFGHIJKLMNOPQRSTUVWXYZabcdefghijklmnopqrstuvwxyz0123456789+/";
    char joined[49] = "";
    char *word = next_word(&rest);
    if (word && strcmp(word, "\\#") == 0)
        return is_hex_dhcid(rest);
    for (; word; word = next_word(&rest)) {
        if (strlen(word) + strlen(joined) > 48)
            return false;
        strcat(joined, word);
    }
    if (strlen(joined) != 48 || strspn(joined, ALPHABET) != 47 || joined[47] != '=')
        return false;
    unsigned first = 0;
    for (int i = 0; i < 4; i++)
        first = first << 6 | (unsigned)(strchr(ALPHABET, joined[i]) - ALPHABET);
    return (strchr(ALPHABET, joined[46]) - ALPHABET) % 4 == 0 && is_dhcid_head(first >> 16, first >> 8 & 255, first & 255);
}

/* The fault of an entry with words, or 0 */
static unsigned fault_of(char *line)
{
    bool is_first = line[0] != ' ';
    char *rest, *owner = strtok_r(line, " ", &rest);
    if (!is_first || !proper_owner(owner))
        return 21;
    char *type = next_word(&rest);
    if (type && strcasecmp(type, "IN") == 0)
        type = next_word(&rest);
    if (!type)
        return 22;
    if (strcasecmp(type, "DHCID") == 0)
        return is_dhcid(rest) ? 0 : 24;
    if (strcasecmp(type, "A") != 0 && strcasecmp(type, "AAAA") != 0)
        return 22;
    char *data = next_word(&rest);
    return data && (type[1] ? is_aaaa(data) : is_a(data)) && !next_word(&rest) ? 0 : 24;
}

uint64_t listing_check_plain(const uint8_t *text, size_t text_len)
{
    char line[VICHRELKA_LISTING_LIMIT + 1];
    uint32_t count = 0;
    if (text_len > VICHRELKA_LISTING_LIMIT)
        return refuse(17);
    for (size_t at = 0, next; at < text_len; at = next) {
        next = flatten(text, text_len, at, line);
        if (next == 0)
            return refused(20, (uint32_t)at);
        if (strspn(line, " ") == strlen(line))
            continue;
        unsigned fault = fault_of(line);
        if (fault != 0)
            return refused(fault, (uint32_t)at);
        count++;
    }
    return accepted(count);
}
