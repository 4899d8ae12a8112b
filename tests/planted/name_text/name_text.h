/*
 * What the shims of names in text share. Most are made by PLANT_FROM_RULES and PLANT_TO_RULES, which read a text or a name by rules of their own,
 * by PLANT_FROM_MENDED and PLANT_TO_MENDED, which take a refused one for another, or by PLANT_FROM_ROOM and PLANT_TO_ROOM, which want other room
 * in out. All others say the whole call.
 */
#ifndef NAME_TEXT_H
#define NAME_TEXT_H

#include "../planted.h"

#define right_from __real_vichrelka_name_from_text
#define right_to __real_vichrelka_name_to_text
#define planted_from __wrap_vichrelka_name_from_text
#define planted_to __wrap_vichrelka_name_to_text

/* The parameters of the calls, and what is handed on of them */
#define TEXT const uint8_t *text, size_t text_len, uint8_t *out, size_t out_len
#define NAME const uint8_t *name, size_t name_len, uint8_t *out, size_t out_len
#define GIVEN_TEXT text, text_len, out, out_len
#define GIVEN_NAME name, name_len, out, out_len

uint64_t right_from(TEXT);
uint64_t planted_from(TEXT);
uint64_t right_to(NAME);
uint64_t planted_to(NAME);

enum { NO_PROPER_NAME = 9, OUTPUT_SHORT = 13 };

/* A name in wire form that is a byte or two too long fits as well. */
enum { MOST = 320 };

static inline uint8_t lowered(uint8_t c)
{
    return c >= 'A' && c <= 'Z' ? (uint8_t)(c + 32) : c;
}

/* What is written in place of the library's bytes: 13, or so many */
static inline uint64_t put(const uint8_t *bytes, size_t len, uint8_t *out, size_t out_len)
{
    if (len > out_len)
        return refused(OUTPUT_SHORT, 0);
    if (len > 0)
        memcpy(out, bytes, len);
    return accepted((uint32_t)len);
}

/* What the library writes with room enough; out stays as it is. */
static uint8_t written[MOST];

static inline uint64_t from_only(const uint8_t *text, size_t text_len)
{
    return right_from(text, text_len, written, MOST);
}

static inline uint64_t to_only(const uint8_t *name, size_t name_len)
{
    return right_to(name, name_len, written, MOST);
}

/* Rules */

struct rules {
    size_t label_limit, name_limit; /* 63, and 255 in wire form */
    const char *more;               /* bytes that a label may have too */
    const char *fewer;              /* bytes that it may not have */
    int is_as_typed;                /* upper case stays */
};

static inline int is_one_of(const char *bytes, uint8_t c)
{
    return c != 0 && strchr(bytes, c) != NULL;
}

/* So many bytes of a label; whether the rules have such a label */
static inline int put_label(const struct rules *r, uint8_t *to, const uint8_t *label, size_t len)
{
    size_t i;
    for (i = 0; i < len; i++) {
        if (!(is_label_byte(label[i]) || is_one_of(r->more, label[i])) || is_one_of(r->fewer, label[i]))
            return 0;
        to[i] = r->is_as_typed ? label[i] : lowered(label[i]);
    }
    return len >= 1 && len <= r->label_limit;
}

static inline uint64_t from_by(const struct rules *r, TEXT)
{
    uint8_t name[MOST];
    const uint8_t *dot;
    size_t at = 0, len;
    if (text_len == 0 || text_len >= r->name_limit)
        return refused(NO_PROPER_NAME, 0);
    for (; at < text_len; at += len + 1) {
        dot = memchr(text + at, '.', text_len - at);
        len = dot == NULL ? 0 : (size_t)(dot - text) - at;
        if (!put_label(r, name + at + 1, text + at, len))
            return refused(NO_PROPER_NAME, 0);
        name[at] = (uint8_t)len;
    }
    name[at] = 0;
    return put(name, at + 1, out, out_len);
}

static inline uint64_t to_by(const struct rules *r, NAME)
{
    uint8_t text[MOST];
    size_t at = 0, len;
    if (name_len < 2 || name_len > r->name_limit || name[name_len - 1] != 0)
        return refused(NO_PROPER_NAME, 0);
    for (; at < name_len - 1; at += len + 1) {
        len = name[at];
        if (len >= name_len - 1 - at || !put_label(r, text + at, name + at + 1, len))
            return refused(NO_PROPER_NAME, 0);
        text[at + len] = '.';
    }
    return put(text, at, out, out_len);
}

#define PLANT_FROM_RULES(...) \
    uint64_t planted_from(TEXT) \
    { \
        static const struct rules RULES = {__VA_ARGS__}; \
        return from_by(&RULES, GIVEN_TEXT); \
    }

#define PLANT_TO_RULES(...) \
    uint64_t planted_to(NAME) \
    { \
        static const struct rules RULES = {__VA_ARGS__}; \
        return to_by(&RULES, GIVEN_NAME); \
    }

/* Where the library refuses with 9: a copy, as `mend` leaves it and its length, is asked. */

#define PLANT_FROM_MENDED(mend) \
    uint64_t planted_from(TEXT) \
    { \
        uint8_t copy[MOST]; \
        uint64_t answer = right_from(GIVEN_TEXT); \
        if (vichrelka_refusal(answer) != NO_PROPER_NAME || text_len == 0 || text_len > MOST - 1) \
            return answer; \
        memcpy(copy, text, text_len); \
        text_len = mend(copy, text_len); \
        return right_from(copy, text_len, out, out_len); \
    }

#define PLANT_TO_MENDED(mend) \
    uint64_t planted_to(NAME) \
    { \
        uint8_t copy[MOST]; \
        uint64_t answer = right_to(GIVEN_NAME); \
        if (vichrelka_refusal(answer) != NO_PROPER_NAME || name_len == 0 || name_len > MOST - 1) \
            return answer; \
        memcpy(copy, name, name_len); \
        name_len = mend(copy, name_len); \
        return right_to(copy, name_len, out, out_len); \
    }

/* 13 for less room than this, and no other; `len` is what is written. */

#define PLANT_FROM_ROOM(room) \
    uint64_t planted_from(TEXT) \
    { \
        uint64_t answer = from_only(text, text_len); \
        size_t len = vichrelka_value(answer); \
        if (vichrelka_refusal(answer) != 0) \
            return answer; \
        if (out_len < (room)) \
            return refused(OUTPUT_SHORT, 0); \
        memcpy(out, written, len < out_len ? len : out_len); \
        return answer; \
    }

#define PLANT_TO_ROOM(room) \
    uint64_t planted_to(NAME) \
    { \
        uint64_t answer = to_only(name, name_len); \
        size_t len = vichrelka_value(answer); \
        if (vichrelka_refusal(answer) != 0) \
            return answer; \
        if (out_len < (room)) \
            return refused(OUTPUT_SHORT, 0); \
        memcpy(out, written, len < out_len ? len : out_len); \
        return answer; \
    }

#endif
