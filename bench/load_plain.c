/* A table of names as a listing, in ordinary C. Load goes once over the text, with words as pointers into it and a hash table of the names that
   it has seen; write puts the lines into a buffer of its own first. */
#include "table_plain.h"

#include <stdbool.h>
#include <string.h>

enum { MOST_RECORDS = VICHRELKA_LISTING_LIMIT / 13 + 1 }; /* `a. A 1.2.3.4` is the shortest line */
enum { BUCKETS = 16384 };
enum { BASE64_LEN = 48, HEX_LEN = 2 * VICHRELKA_DHCID_LEN };

/* Words */

struct word {
    const uint8_t *first;
    size_t len;
};

/* owner, IN, type and a DHCID of one character a word; one more is one too many, whatever stands behind it */
enum { MOST_WORDS = 3 + BASE64_LEN + 1 };

struct entry {
    size_t count;
    struct word words[MOST_WORDS];
};

enum { FORBIDDEN, BLANK, LINE_END, OPEN, CLOSE, COMMENT, IN_WORD };
static const uint8_t CLASS[256] = {['\t'] = BLANK,          [' '] = BLANK, ['\n'] = LINE_END, ['('] = OPEN, [')'] = CLOSE, [';'] = COMMENT,
                                   ['!' ... '\''] = IN_WORD, ['*' ... ':'] = IN_WORD, ['<' ... '~'] = IN_WORD};

/* Cuts the entry that begins here into words; where it ends, or null for a fault of its shape */
static const uint8_t *cut(const uint8_t *at, const uint8_t *end, struct entry *e)
{
    bool inside = false;
    for (e->count = 0; at < end; at++) {
        uint8_t class = CLASS[*at];
        if (class == IN_WORD) {
            const uint8_t *first = at;
            while (at + 1 < end && CLASS[at[1]] == IN_WORD)
                at++;
            if (e->count < MOST_WORDS)
                e->words[e->count++] = (struct word){first, (size_t)(at + 1 - first)};
        } else if (class == COMMENT) {
            while (at + 1 < end && at[1] != '\n')
                if (CLASS[*++at] == FORBIDDEN)
                    return NULL;
        } else if (class == LINE_END && !inside) {
            return at;
        } else if (class == OPEN || class == CLOSE) {
            if (inside == (class == OPEN))
                return NULL;
            inside = !inside;
        } else if (class == FORBIDDEN) {
            return NULL;
        }
    }
    return inside ? NULL : end;
}

static uint8_t lowered(uint8_t c) { return c >= 'A' && c <= 'Z' ? c + ('a' - 'A') : c; }

static bool is(struct word w, const char *upper)
{
    size_t i = 0;
    while (i < w.len && upper[i] && lowered(w.first[i]) == lowered((uint8_t)upper[i]))
        i++;
    return i == w.len && !upper[i];
}

/* Owners */

static const bool IN_LABEL[256] = {['a' ... 'z'] = true, ['A' ... 'Z'] = true, ['0' ... '9'] = true, ['-'] = true, ['_'] = true};

static bool proper_owner(struct word w)
{
    size_t label = 0;
    for (size_t i = 0; i < w.len; i++) {
        if (IN_LABEL[w.first[i]] ? ++label > LABEL_LIMIT : w.first[i] != '.' || label == 0)
            return false;
        label = w.first[i] == '.' ? 0 : label;
    }
    return w.len > 0 && label == 0 && w.len < NAME_LIMIT;
}

/* From text to wire form: a dot's place shifts by one, and has the length of the label behind it. */
static void set_name(struct slot *s, struct word owner)
{
    size_t length_at = 0;
    for (size_t i = 0; i < owner.len; i++)
        if (owner.first[i] == '.') {
            s->name[length_at] = (uint8_t)(i - length_at);
            length_at = i + 1;
        } else {
            s->name[i + 1] = lowered(owner.first[i]);
        }
    s->len = (uint8_t)(owner.len + 1);
}

/* Names in the order in which they were seen, by their text, and where a hash finds them: a place is the number of a name, and one more */
struct seen {
    size_t count;
    struct {
        struct word owner;
        uint8_t flags;
    } names[MOST_RECORDS];
    uint16_t places[BUCKETS];
};

static bool same_owner(struct word a, struct word b)
{
    if (a.len != b.len)
        return false;
    for (size_t i = 0; i < a.len; i++)
        if (lowered(a.first[i]) != lowered(b.first[i]))
            return false;
    return true;
}

static size_t number_of(struct seen *s, struct word owner)
{
    uint32_t hash = 2166136261u; /* FNV-1a */
    for (size_t i = 0; i < owner.len; i++)
        hash = (hash ^ lowered(owner.first[i])) * 16777619u;
    size_t at = (hash ^ hash >> 16) % BUCKETS;
    while (s->places[at] != 0 && !same_owner(s->names[s->places[at] - 1].owner, owner))
        at = (at + 1) % BUCKETS;
    if (s->places[at] == 0) {
        s->names[s->count].owner = owner;
        s->names[s->count].flags = 0;
        s->places[at] = (uint16_t)++s->count;
    }
    return s->places[at] - 1u;
}

/* Data */

static bool read_a(struct word w, uint8_t *out)
{
    const uint8_t *at = w.first, *end = w.first + w.len;
    for (int i = 0; i < 4; i++) {
        const uint8_t *first = at;
        unsigned number = 0;
        for (; at < end && *at >= '0' && *at <= '9' && at - first < 3; at++)
            number = number * 10 + *at - '0';
        if (at == first || number > 255 || (*first == '0' && at - first > 1))
            return false;
        out[i] = (uint8_t)number;
        if (i < 3 && (at == end || *at++ != '.'))
            return false;
    }
    return at == end;
}

static int hex(uint8_t c)
{
    return c >= '0' && c <= '9' ? c - '0' : c >= 'a' && c <= 'f' ? c - 'a' + 10 : c >= 'A' && c <= 'F' ? c - 'A' + 10 : -1;
}

static bool read_aaaa(struct word w, uint8_t *out)
{
    const uint8_t *at = w.first, *end = w.first + w.len;
    for (int i = 0; i < 8; i++) {
        const uint8_t *first = at;
        unsigned group = 0;
        for (; at < end && hex(*at) >= 0 && at - first < 4; at++)
            group = group * 16 + (unsigned)hex(*at);
        if (at == first)
            return false;
        out[2 * i] = (uint8_t)(group >> 8);
        out[2 * i + 1] = (uint8_t)group;
        if (i < 7 && (at == end || *at++ != ':'))
            return false;
    }
    return at == end;
}

static const char BASE64[] = "ABCDEFGHIJKLMNOPQRSTUVWXYZabcdefghijklmnopqrstuvwxyz0123456789+/";

/* a digit's value and one more */
static const uint8_t *base64_values(void)
{
    static uint8_t values[256];
    if (values['A'] == 0)
        for (uint8_t i = 0; i < 64; i++)
            values[(uint8_t)BASE64[i]] = i + 1;
    return values;
}

static bool read_dhcid(const struct word *words, size_t count, uint8_t *out)
{
    bool is_hex = count > 0 && is(words[0], "\\#");
    size_t most = is_hex ? HEX_LEN : BASE64_LEN, len = 0;
    uint8_t digits[HEX_LEN];
    if (is_hex && (count < 2 || !is(words[1], "35")))
        return false;
    for (size_t i = is_hex ? 2 : 0; i < count; i++) {
        if (words[i].len > most - len || (is_hex && words[i].len % 2 != 0))
            return false;
        memcpy(digits + len, words[i].first, words[i].len);
        len += words[i].len;
    }
    if (len != most)
        return false;
    if (is_hex) {
        for (size_t i = 0; i < VICHRELKA_DHCID_LEN; i++) {
            int high = hex(digits[2 * i]), low = hex(digits[2 * i + 1]);
            if (high < 0 || low < 0)
                return false;
            out[i] = (uint8_t)(high * 16 + low);
        }
        return proper_dhcid(out);
    }
    const uint8_t *values = base64_values();
    uint8_t whole[VICHRELKA_DHCID_LEN + 1];
    if (digits[BASE64_LEN - 1] != '=')
        return false;
    digits[BASE64_LEN - 1] = 'A';
    for (size_t i = 0; i < BASE64_LEN / 4; i++) {
        uint32_t group = 0;
        for (size_t k = 0; k < 4; k++) {
            if (values[digits[4 * i + k]] == 0)
                return false;
            group = group << 6 | (values[digits[4 * i + k]] - 1u);
        }
        whole[3 * i] = (uint8_t)(group >> 16);
        whole[3 * i + 1] = (uint8_t)(group >> 8);
        whole[3 * i + 2] = (uint8_t)group;
    }
    memcpy(out, whole, VICHRELKA_DHCID_LEN);
    /* what the padding took the place of, and the two spare bits before it */
    return whole[VICHRELKA_DHCID_LEN] == 0 && proper_dhcid(out);
}

/* Load */

/* Reads the data of an entry into the field of their type; the type's flag, or 0 */
static uint8_t read_data(const struct entry *e, size_t head, struct slot *s)
{
    const struct word *data = &e->words[head + 1];
    size_t count = e->count - head - 1;
    if (is(e->words[head], "A"))
        return count == 1 && read_a(data[0], s->a) ? HAS_A : 0;
    if (is(e->words[head], "AAAA"))
        return count == 1 && read_aaaa(data[0], s->aaaa) ? HAS_AAAA : 0;
    return read_dhcid(data, count, s->dhcid) ? HAS_DHCID : 0;
}

/* The fault of an entry with words, 0 if it has none; then its record is in the slot and its type's flag with it */
static uint32_t read_entry(const struct entry *e, const uint8_t *start, struct slot *record, uint8_t *flag)
{
    if (e->words[0].first != start || !proper_owner(e->words[0]))
        return VICHRELKA_REFUSED_ENTRY_OWNER;
    size_t head = e->count > 1 && is(e->words[1], "IN") ? 2 : 1;
    if (e->count <= head || !(is(e->words[head], "A") || is(e->words[head], "AAAA") || is(e->words[head], "DHCID")))
        return VICHRELKA_REFUSED_ENTRY_TYPE;
    *flag = read_data(e, head, record);
    return *flag == 0 ? VICHRELKA_REFUSED_ENTRY_DATA : 0;
}

static void set_record(struct slot *s, const struct slot *record, uint8_t flag)
{
    if (flag == HAS_A)
        memcpy(s->a, record->a, sizeof s->a);
    else if (flag == HAS_AAAA)
        memcpy(s->aaaa, record->aaaa, sizeof s->aaaa);
    else
        memcpy(s->dhcid, record->dhcid, sizeof s->dhcid);
    s->flags |= flag;
}

uint64_t table_load_plain(uint8_t *table, size_t table_len, const uint8_t *text, size_t text_len)
{
    struct slot slots[VICHRELKA_TABLE_NAMES], record;
    struct seen seen;
    struct entry e;
    bool twice = false;
    if (text_len > VICHRELKA_LISTING_LIMIT)
        return refuse(VICHRELKA_REFUSED_LISTING_LONG);
    memset(slots, 0, sizeof slots);
    memset(seen.places, 0, sizeof seen.places);
    seen.count = 0;
    for (const uint8_t *at = text, *end = text + text_len, *entry_end; at < end; at = entry_end + 1) {
        uint8_t flag;
        entry_end = cut(at, end, &e);
        uint32_t fault = !entry_end ? VICHRELKA_REFUSED_ENTRY_SHAPE : e.count == 0 ? 0 : read_entry(&e, at, &record, &flag);
        if (fault != 0)
            return refused(fault, (uint32_t)(at - text));
        if (e.count == 0)
            continue;
        size_t number = number_of(&seen, e.words[0]);
        twice |= (seen.names[number].flags & flag) != 0;
        seen.names[number].flags |= flag;
        if (number < VICHRELKA_TABLE_NAMES) {
            if (slots[number].len == 0)
                set_name(&slots[number], e.words[0]);
            set_record(&slots[number], &record, flag);
        }
    }
    if (twice)
        return refuse(VICHRELKA_REFUSED_RECORD_REPEATED);
    if (seen.count > VICHRELKA_TABLE_NAMES)
        return refuse(VICHRELKA_REFUSED_TABLE_FULL);
    if (table_len < sizeof slots)
        return refuse(VICHRELKA_REFUSED_OUTPUT_SHORT);
    memcpy(table, slots, sizeof slots);
    return 0;
}

/* Write: each function puts its part where it is told and says where the next one goes */

static uint8_t *put(uint8_t *at, const char *text)
{
    size_t len = strlen(text);
    memcpy(at, text, len);
    return at + len;
}

static uint8_t *put_owner(uint8_t *at, const struct slot *s)
{
    for (const uint8_t *label = s->name; *label != 0; label += 1 + *label) {
        memcpy(at, label + 1, *label);
        at += *label;
        *at++ = '.';
    }
    return at;
}

static uint8_t *put_a(uint8_t *at, const uint8_t *a)
{
    for (int i = 0; i < 4; i++) {
        if (a[i] >= 100)
            *at++ = (uint8_t)('0' + a[i] / 100);
        if (a[i] >= 10)
            *at++ = (uint8_t)('0' + a[i] / 10 % 10);
        *at++ = (uint8_t)('0' + a[i] % 10);
        *at++ = i < 3 ? '.' : '\n';
    }
    return at;
}

static uint8_t *put_aaaa(uint8_t *at, const uint8_t *aaaa)
{
    static const char DIGITS[] = "0123456789abcdef";
    for (int i = 0; i < 16; i++) {
        *at++ = (uint8_t)DIGITS[aaaa[i] >> 4];
        *at++ = (uint8_t)DIGITS[aaaa[i] & 15];
        if (i % 2)
            *at++ = i < 15 ? ':' : '\n';
    }
    return at;
}

static uint8_t *put_dhcid(uint8_t *at, const uint8_t *dhcid)
{
    uint8_t whole[VICHRELKA_DHCID_LEN + 1] = {0};
    memcpy(whole, dhcid, VICHRELKA_DHCID_LEN);
    for (size_t i = 0; i < sizeof whole; i += 3) {
        uint32_t group = (uint32_t)whole[i] << 16 | (uint32_t)whole[i + 1] << 8 | whole[i + 2];
        for (int shift = 18; shift >= 0; shift -= 6)
            *at++ = (uint8_t)BASE64[group >> shift & 63];
    }
    at[-1] = '=';
    *at++ = '\n';
    return at;
}

uint64_t table_write_plain(const uint8_t *table, size_t table_len, uint8_t *out, size_t out_len)
{
    uint8_t lines[VICHRELKA_WRITTEN_LIMIT], *at = lines;
    const struct slot *slots = (const struct slot *)table;
    int count = count_sound(slots, table_len);
    if (count < 0)
        return refuse(VICHRELKA_REFUSED_TABLE_NOT_SOUND);
    for (const struct slot *s = slots; s < slots + count; s++) {
        if (s->flags & HAS_A)
            at = put_a(put(put_owner(at, s), " A "), s->a);
        if (s->flags & HAS_AAAA)
            at = put_aaaa(put(put_owner(at, s), " AAAA "), s->aaaa);
        if (s->flags & HAS_DHCID)
            at = put_dhcid(put(put_owner(at, s), " DHCID "), s->dhcid);
    }
    size_t len = (size_t)(at - lines);
    if (len > out_len)
        return refuse(VICHRELKA_REFUSED_OUTPUT_SHORT);
    if (len > 0)
        memcpy(out, lines, len);
    return accepted((uint32_t)len);
}
