/* Names for the benchmarks: of each kind one for every number, and all differ. */
#ifndef NAMES_H
#define NAMES_H

#include <stdio.h>
#include <string.h>

#include "measure.h"
#include "table_plain.h"

/* what may stand in a label, in lower case */
static const char IN_LABEL[] = "abcdefghijklmnopqrstuvwxyz0123456789-_";
enum { LABEL_BYTES = sizeof IN_LABEL - 1 };

/* In text */

typedef void text_fn(char *text, int i);

static inline void ordinary(char *text, int i)
{
    static const char *const THINGS[] = {"tank", "pump", "valve", "gauge", "weather-mast"};
    static const char *const PLACES[] = {"bay", "hall", "greenhouse"};
    sprintf(text, "%s-%d.%s-%d.example.com.", THINGS[i % 5], i + 1, PLACES[i % 3], i % 12 + 1);
}

/* 255 bytes in wire form: labels of 63, 63, 63 and 61 characters, all from `first` on in the order of the alphabet */
static inline void long_name(char *text, int first)
{
    for (int at = 0; at < VICHRELKA_NAME_TEXT_LIMIT - 1; at++)
        text[at] = at % (LABEL_LIMIT + 1) == LABEL_LIMIT ? '.' : (char)('a' + (first + at) % 26);
    text[VICHRELKA_NAME_TEXT_LIMIT - 1] = '.';
    text[VICHRELKA_NAME_TEXT_LIMIT] = 0;
}

/* for 64 numbers */
static inline void long_different(char *text, int i)
{
    long_name(text, i);
    /* there are but 26 beginnings, so a number too, where a name would have it */
    text[6] = (char)('0' + i / 8);
    text[7] = (char)('0' + i % 8);
}

/* alike but for the last three; the first 1,444 but for the last two, the first 38 but for the last one */
static inline void long_alike(char *text, int i)
{
    long_name(text, 0);
    for (int at = VICHRELKA_NAME_TEXT_LIMIT - 2; at > VICHRELKA_NAME_TEXT_LIMIT - 5; at--, i /= LABEL_BYTES)
        text[at] = IN_LABEL[i % LABEL_BYTES];
}

/* In wire form */

struct name {
    size_t len;
    uint8_t bytes[NAME_LIMIT];
};

static inline struct name name_of(text_fn *write, int i)
{
    char text[VICHRELKA_NAME_TEXT_LIMIT + 1];
    struct name name;
    write(text, i);
    uint64_t answer = vichrelka_name_from_text((const uint8_t *)text, strlen(text), name.bytes, sizeof name.bytes);
    if (vichrelka_refusal(answer) != 0)
        stop(text, "not a name");
    name.len = vichrelka_value(answer);
    return name;
}

#endif
