/*
 * The general part of a harness: one case a line on standard input, one answer a line on standard output.
 *
 * Every answer is written out at once: whoever compares sees at which case the harness fell.
 */
#define _POSIX_C_SOURCE 200809L

#include "harness.h"

#include <errno.h>
#include <inttypes.h>
#include <stdio.h>
#include <stdlib.h>
#include <string.h>
#include <sys/types.h>

#include "vichrelka.h"

/* So many zeros and more are not printed one by one. */
enum { ZEROS = 8 };

/* Fields */

/* Where the next field ends. */
static size_t field_len(const char *rest)
{
    return strcspn(rest, " ");
}

static void pass_field(char **rest, size_t len)
{
    *rest += len;
    if (**rest == ' ')
        (*rest)++;
}

int take_word(char **rest, const char *word)
{
    size_t len = field_len(*rest);
    if (strlen(word) != len || strncmp(*rest, word, len) != 0)
        return 0;
    pass_field(rest, len);
    return 1;
}

/* The number that a text begins with, and its digits' end; whether there is one. */
static int read_number(const char *text, uint64_t most, uint64_t *number, char **end)
{
    if (*text < '0' || *text > '9')
        return 0;
    errno = 0;
    *number = strtoull(text, end, 10);
    return errno == 0 && *number <= most;
}

int take_number(char **rest, uint64_t most, uint64_t *number)
{
    char *end;
    if (!read_number(*rest, most, number, &end) || end != *rest + field_len(*rest))
        return 0;
    pass_field(rest, (size_t)(end - *rest));
    return 1;
}

static int hex_digit(char c)
{
    if (c >= '0' && c <= '9')
        return c - '0';
    if (c >= 'a' && c <= 'f')
        return c - 'a' + 10;
    return -1;
}

/* HEX, HEX+N or -+N; `-` alone is no bytes. */
int take_bytes(char **rest, struct bytes *bytes)
{
    char *field = *rest, *end = field + field_len(field);
    uint8_t *out = (uint8_t *)field;
    uint64_t zeros = 0;
    size_t digits = strcspn(field, " +"), n;
    char *after = field + digits;
    if (*after == '+' && (!read_number(after + 1, PTRDIFF_MAX, &zeros, &after) || zeros == 0))
        return 0;
    if (after != end || digits == 0)
        return 0;
    pass_field(rest, (size_t)(end - field));
    bytes->first = out;
    bytes->len = 0;
    bytes->zeros = (size_t)zeros;
    if (digits == 1 && *field == '-')
        return 1;
    for (n = 0; n < digits; n += 2) {
        int high = hex_digit(field[n]);
        int low = n + 1 < digits ? hex_digit(field[n + 1]) : -1;
        if (high < 0 || low < 0)
            return 0;
        out[bytes->len++] = (uint8_t)(high * 16 + low);
    }
    return bytes->len <= ROOM;
}

int take_pieces(char **rest, uint8_t *whole, struct bytes *bytes)
{
    char *end = *rest + field_len(*rest), *comma;
    struct bytes piece;
    for (comma = *rest; comma < end; comma++)
        if (*comma == ',')
            *comma = ' ';
    bytes->first = whole;
    bytes->len = bytes->zeros = 0;
    do {
        if (!take_bytes(rest, &piece) || bytes->zeros > 0 || piece.len > ROOM - bytes->len)
            return 0;
        memcpy(whole + bytes->len, piece.first, piece.len);
        bytes->len += piece.len;
        if (piece.zeros > ROOM - bytes->len) {
            bytes->zeros = piece.zeros;
        } else {
            memset(whole + bytes->len, 0, piece.zeros);
            bytes->len += piece.zeros;
        }
    } while (*rest < end);
    return 1;
}

/* How many zeros stand at the start of these bytes. */
static size_t zeros_at(const uint8_t *bytes, size_t len)
{
    size_t n = 0;
    while (n < len && bytes[n] == 0)
        n++;
    return n;
}

/* Bytes as take_pieces reads them */
static void print_pieces(const uint8_t *bytes, size_t len)
{
    static const char digits[] = "0123456789abcdef";
    size_t at = 0;
    do {
        size_t start = at, zeros = 0;
        for (; at < len && (zeros = zeros_at(bytes + at, len - at)) < ZEROS; at++) {
            putchar(digits[bytes[at] >> 4]);
            putchar(digits[bytes[at] & 15]);
        }
        if (at == start)
            putchar('-');
        if (at < len)
            printf("+%zu", zeros);
        at += at < len ? zeros : 0;
        if (at < len)
            putchar(',');
    } while (at < len);
}

int is_whole(const char *rest)
{
    return *rest == '\0';
}

/* Calls */

static void print_refusal(uint64_t answer)
{
    printf("refused %" PRIu32 " at %" PRIu32 "\n", vichrelka_refusal(answer), vichrelka_place(answer));
}

static int is_same(const struct outcome *one, const struct outcome *other)
{
    return one->answer == other->answer && one->written_len == other->written_len
        && (one->written_len == 0 || memcmp(one->written, other->written, one->written_len) == 0);
}

int ask(call_fn *call, differs_fn *differs, const void *asked, struct outcome *done)
{
    struct outcome other;
    int way;
    for (way = ENDS; way < WAYS; way++) {
        if (way > STARTS && !differs(asked, (enum way)way))
            continue;
        call(asked, (enum way)way, &other);
        if (way == ENDS)
            *done = other;
        if (!other.is_as_lent) {
            printf("changed\n");
            return 0;
        }
        if (!is_same(done, &other)) {
            printf("differs %016" PRIx64 " %016" PRIx64 "\n", done->answer, other.answer);
            return 0;
        }
    }
    if (vichrelka_refusal(done->answer) != 0)
        print_refusal(done->answer);
    return vichrelka_refusal(done->answer) == 0;
}

void print_written(const struct outcome *done)
{
    printf("ok %" PRIu32 " ", vichrelka_value(done->answer));
    print_pieces(done->written, done->written_len);
    printf("\n");
}

int main(void)
{
    char *line = NULL;
    size_t size = 0;
    ssize_t got;
    while ((got = getline(&line, &size, stdin)) >= 0) {
        if (got > 0 && line[got - 1] == '\n')
            line[got - 1] = '\0';
        if (!answer_line(line))
            printf("no such case\n");
        if (fflush(stdout) != 0)
            fail("cannot write an answer");
    }
    free(line);
    return 0;
}
