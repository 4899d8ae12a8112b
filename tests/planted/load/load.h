/*
 * What the shims of load and write share; the slots of a table and the numbers of refusals are those of planted/table/table.h.
 *
 * Most shims of load are made by PLANT_LOADED, which changes the table that the library has read, PLANT_SLOTS, which changes each slot,
 * PLANT_REPEATS, which says what counts as two records of one type, or PLANT_FULL. Most shims of write are made by PLANT_LINES, which changes
 * each line, PLANT_TABLE, which writes another table, or PLANT_MENDED, which takes a damaged table for a sound one.
 */
#ifndef LOAD_H
#define LOAD_H

#include <stdlib.h>

#include "../planted.h"

#define right_load __real_vichrelka_table_load
#define right_write __real_vichrelka_table_write
#define planted_load __wrap_vichrelka_table_load
#define planted_write __wrap_vichrelka_table_write

/* The parameters of the calls, and what is handed on of them */
#define LOADING uint8_t *area, size_t area_len, const uint8_t *text, size_t text_len
#define WRITING const uint8_t *table, size_t table_len, uint8_t *out, size_t out_len
#define GIVEN_LOADING area, area_len, text, text_len
#define GIVEN_WRITING table, table_len, out, out_len

uint64_t right_load(LOADING);
uint64_t planted_load(LOADING);
uint64_t right_write(WRITING);
uint64_t planted_write(WRITING);

/* Where the library takes the table for not sound: a copy as `mend` leaves it is written. */
#define PLANT_MENDED(mend) \
    uint64_t planted_write(WRITING) \
    { \
        static uint8_t copy[TABLE]; \
        uint64_t answer = right_write(GIVEN_WRITING); \
        if (vichrelka_refusal(answer) != NOT_SOUND || table_len != TABLE) \
            return answer; \
        memcpy(copy, table, TABLE); \
        mend(copy); \
        return right_write(copy, TABLE, out, out_len); \
    }

#include "../table/table.h"

enum { OUTPUT_SHORT = 13, RECORD_REPEATED = 35 };

static inline int is_fault_of_entry(uint64_t answer)
{
    return vichrelka_refusal(answer) >= 20 && vichrelka_refusal(answer) <= 24;
}

/* Slots */

/* For qsort: by the alphabet, more or less */
static inline int compare_names(const void *one, const void *other)
{
    return memcmp((const uint8_t *)one + NAME_AT, (const uint8_t *)other + NAME_AT, FLAGS_AT - NAME_AT);
}

/* Takes an A of zeros for none, if the name has something else. */
static inline void drop_zeros(uint8_t *slot)
{
    if (slot[FLAGS_AT] > HAS_A && memcmp(slot + A_AT, "\0\0\0", AAAA_AT - A_AT) == 0)
        slot[FLAGS_AT] &= (uint8_t)~HAS_A;
}

/* Of as many bytes as a table has: clear refuses no name at all, but what is not sound before that. */
static inline int is_sound(const uint8_t *table)
{
    return vichrelka_refusal(vichrelka_table_clear((uint8_t *)(uintptr_t)table, TABLE, NULL, 0)) != NOT_SOUND;
}

/* Load */

/* The table that the library reads from a text */
static uint8_t loaded[TABLE];

/* What the library would answer; the table goes to `loaded` and the area stays as it is. */
static inline uint64_t load_only(size_t area_len, const uint8_t *text, size_t text_len)
{
    return right_load(loaded, area_len < TABLE ? 0 : TABLE, text, text_len);
}

/* The table that is `loaded`, after this was done to it */
#define PLANT_LOADED(change) \
    uint64_t planted_load(LOADING) \
    { \
        uint64_t answer = load_only(area_len, text, text_len); \
        if (answer == 0) { \
            change; \
            memcpy(area, loaded, TABLE); \
        } \
        return answer; \
    }

/* The same, where it is done to each slot that is used; `old` is what stood there. */
#define PLANT_SLOTS(change) \
    static void change_slots(const uint8_t *area) \
    { \
        size_t i, count = used(loaded); \
        for (i = 0; i < count; i++) { \
            uint8_t *slot = loaded + i * SLOT; \
            const uint8_t *old = area + i * SLOT; \
            change; \
        } \
    } \
    PLANT_LOADED(change_slots(area))

/* A record of a listing: a slot with its name and no other record, and where its entry stands, which begins with the owner */
struct record {
    uint8_t slot[SLOT];
    const uint8_t *entry;
    size_t entry_len;
};

/* No line is shorter than `a. A 1.2.3.4`. */
enum { MOST_RECORDS = VICHRELKA_LISTING_LIMIT / 13 + 1 };

static struct record records[MOST_RECORDS];
static size_t record_count;

/* How many bytes the first entry of a text has, of which the library has said that its shape is right. */
static inline size_t entry_len(const uint8_t *text, size_t len)
{
    size_t at;
    int inside = 0, in_comment = 0;
    for (at = 0; at < len && (text[at] != '\n' || inside); at++) {
        in_comment = text[at] != '\n' && (in_comment || text[at] == ';');
        if (!in_comment && (text[at] == '(' || text[at] == ')'))
            inside = text[at] == '(';
    }
    return at;
}

/* The records of a text up to its end or its first fault, each of which the library reads by itself */
static inline void read_records(const uint8_t *text, size_t len)
{
    static uint8_t one[TABLE];
    size_t at, entry;
    record_count = 0;
    for (at = 0; at < len; at += entry + 1) {
        entry = entry_len(text + at, len - at);
        if (right_load(one, TABLE, text + at, entry) != 0)
            return;
        if (one[0] != 0) {
            memcpy(records[record_count].slot, one, SLOT);
            records[record_count].entry = text + at;
            records[record_count++].entry_len = entry;
        }
    }
}

static inline int is_same_name(const uint8_t *slot, const uint8_t *other)
{
    return memcmp(slot, other, FLAGS_AT) == 0;
}

static inline int is_repeat(size_t one, size_t other)
{
    return is_same_name(records[one].slot, records[other].slot) && records[one].slot[FLAGS_AT] == records[other].slot[FLAGS_AT];
}

/* Puts a record into the slot of its name. */
static inline void put_record(uint8_t *slot, const uint8_t *record)
{
    uint8_t flag = record[FLAGS_AT];
    size_t at = flag == HAS_A ? A_AT : flag == HAS_AAAA ? AAAA_AT : DHCID_AT, end = flag == HAS_A ? AAAA_AT : flag == HAS_AAAA ? DHCID_AT : SLOT;
    memcpy(slot + at, record + at, end - at);
    slot[FLAGS_AT] |= flag;
}

/* The names of the records, in order of the first of each, with all that they have; of two records of one type the later one */
static uint8_t names[MOST_RECORDS][SLOT];
static size_t name_count;

static inline void put_together(void)
{
    size_t i, n;
    name_count = 0;
    for (i = 0; i < record_count; i++) {
        for (n = 0; n < name_count && !is_same_name(names[n], records[i].slot); n++)
            ;
        if (n == name_count)
            memcpy(names[name_count++], records[i].slot, SLOT);
        put_record(names[n], records[i].slot);
    }
}

static inline void read_names(const uint8_t *text, size_t text_len)
{
    read_records(text, text_len);
    put_together();
}

/* Loads these names: 32, 13, or they are the table. */
static inline uint64_t load_names(uint8_t *area, size_t area_len)
{
    if (name_count > NAMES)
        return refused(FULL, 0);
    if (area_len < TABLE)
        return refused(OUTPUT_SHORT, 0);
    memset(area, 0, TABLE);
    memcpy(area, names, name_count * SLOT);
    return 0;
}

/* Two records of one type are found if `counts` says so of their numbers; else the later one stays. */
#define PLANT_REPEATS(counts) \
    uint64_t planted_load(LOADING) \
    { \
        size_t one, other; \
        uint64_t answer = right_load(GIVEN_LOADING); \
        if (vichrelka_refusal(answer) != RECORD_REPEATED) \
            return answer; \
        read_records(text, text_len); \
        for (one = 0; one < record_count; one++) \
            for (other = one + 1; other < record_count; other++) \
                if (is_repeat(one, other) && (counts)) \
                    return answer; \
        put_together(); \
        return load_names(area, area_len); \
    }

/* Too many names, after this was done to their number */
#define PLANT_FULL(change) \
    uint64_t planted_load(LOADING) \
    { \
        uint64_t answer = right_load(GIVEN_LOADING); \
        if (vichrelka_refusal(answer) != FULL) \
            return answer; \
        read_names(text, text_len); \
        change; \
        return load_names(area, area_len); \
    }

/* Write */

/* The longest listing has 56,512 bytes; there is room for a changed one. */
enum { LISTING = 2 * VICHRELKA_LISTING_LIMIT };

static uint8_t listing[LISTING];

/* Writes this text in place of the listing: 13, or so many bytes. */
static inline uint64_t write_text(const uint8_t *text, size_t len, uint8_t *out, size_t out_len)
{
    if (len > out_len)
        return refused(OUTPUT_SHORT, 0);
    if (len > 0)
        memcpy(out, text, len);
    return accepted((uint32_t)len);
}

/* What the library would answer with room enough; the listing goes to `listing` and out stays as it is. */
static inline uint64_t write_only(const uint8_t *table, size_t table_len)
{
    return right_write(table, table_len, listing, LISTING);
}

/* A line of a listing, with its end: owner, type and data */
struct line {
    const uint8_t *first, *type, *data;
    size_t len;
};

static inline struct line line_at(const uint8_t *first)
{
    struct line line;
    line.first = first;
    line.type = (const uint8_t *)strchr((const char *)first, ' ') + 1;
    line.data = (const uint8_t *)strchr((const char *)line.type, ' ') + 1;
    line.len = (size_t)((const uint8_t *)strchr((const char *)line.data, '\n') + 1 - first);
    return line;
}

static inline int is_dhcid_line(const struct line *line)
{
    return line->type[0] == 'D';
}

static inline int is_aaaa_line(const struct line *line)
{
    return line->data - line->type == 5;
}

static inline int is_a_line(const struct line *line)
{
    return line->data - line->type == 2;
}

static inline size_t put_bytes(uint8_t *out, const void *bytes, size_t len)
{
    memcpy(out, bytes, len);
    return len;
}

static inline size_t put_line(const struct line *line, uint8_t *out)
{
    return put_bytes(out, line->first, line->len);
}

/* The line up to its data, and then these */
static inline size_t put_with_data(const struct line *line, const void *data, size_t len, uint8_t *out)
{
    size_t head = put_bytes(out, line->first, (size_t)(line->data - line->first));
    return head + put_bytes(out + head, data, len);
}

/* Each line as `change` puts it, which says how many bytes that are. */
#define PLANT_LINES(change) \
    uint64_t planted_write(WRITING) \
    { \
        static uint8_t changed[LISTING]; \
        uint64_t answer = write_only(table, table_len); \
        size_t at, len = 0; \
        struct line line; \
        if (vichrelka_refusal(answer) != 0) \
            return answer; \
        listing[vichrelka_value(answer)] = 0; \
        for (at = 0; at < vichrelka_value(answer); at += line.len) { \
            line = line_at(listing + at); \
            len += change(&line, changed + len); \
        } \
        return write_text(changed, len, out, out_len); \
    }

/* A `copy` of the table, if it is sound, after this was done to it */
#define PLANT_TABLE(change) \
    uint64_t planted_write(WRITING) \
    { \
        static uint8_t copy[TABLE]; \
        uint64_t answer = write_only(table, table_len); \
        if (vichrelka_refusal(answer) != 0) \
            return answer; \
        memcpy(copy, table, TABLE); \
        change; \
        return right_write(copy, TABLE, out, out_len); \
    }

#endif
