/*
 * Calls the four writers of UPDATE messages and the reader of answers on each case in up to four ways, and all have to agree, in the answer and in what
 * they write: with every slice at the end, and at the start, of memory that can be read; with null pointers for the empty ones; and, where the name ends
 * in the zone's bytes, with the zone lent from there. Before each call out is filled with noise, in every way with another.
 */
#include <inttypes.h>
#include <stdio.h>
#include <string.h>

#include "harness.h"
#include "vichrelka.h"

enum word { ADD_FIRST, ADD_SECOND, REMOVE_FIRST, REMOVE_SECOND, ANSWER, WORDS };

enum slice { ZONE, NAME, DHCID, ADDRESS, MESSAGE, SLICES };

/* A call has no more slices than it needs; the others are of no bytes, and are lent to nobody. */
struct asked {
    enum word word;
    uint16_t id;
    uint32_t family;
    struct bytes slices[SLICES];
    size_t out_len;
};

/* Each way has its own of what is written, so that they can be compared. */
static struct room rooms[SLICES], out_rooms[WAYS];

static int has(enum word word, enum slice slice)
{
    return word == ANSWER ? slice == MESSAGE : slice < ADDRESS || (slice == ADDRESS && word != REMOVE_SECOND);
}

/* Whether the zone's bytes are the name's last */
static int has_zone_inside(const struct asked *a)
{
    const struct bytes *name = &a->slices[NAME], *zone = &a->slices[ZONE];
    return a->word != ANSWER && name->zeros == 0 && zone->zeros == 0 && zone->len > 0 && zone->len <= name->len
        && memcmp(name->first + (name->len - zone->len), zone->first, zone->len) == 0;
}

static int differs(const void *asked, enum way way)
{
    const struct asked *a = asked;
    int slice, has_empty = a->word != ANSWER && a->out_len == 0;
    if (way == INSIDE)
        return has_zone_inside(a);
    for (slice = ZONE; slice < SLICES; slice++)
        has_empty = has_empty || (has(a->word, (enum slice)slice) && length(&a->slices[slice]) == 0);
    return has_empty;
}

/* So many bytes of noise, which are others in every way */
static const uint8_t *noise_of(enum way way, size_t len)
{
    static uint8_t noise[WAYS][ROOM];
    static size_t made[WAYS];
    for (; made[way] < len; made[way]++)
        noise[way][made[way]] = (uint8_t)((uint32_t)(WAYS * made[way] + way) * 2654435761u >> 24);
    return noise[way];
}

/* Of an out that is longer than a room, so much is filled and compared. */
static size_t filled(size_t out_len)
{
    return out_len < ROOM ? out_len : ROOM;
}

static uint64_t write_message(const struct asked *a, const uint8_t *const *lent, uint8_t *out)
{
    const struct bytes *s = a->slices;
    size_t zone_len = length(&s[ZONE]), name_len = length(&s[NAME]), dhcid_len = length(&s[DHCID]), address_len = length(&s[ADDRESS]);
    switch (a->word) {
    case ADD_FIRST:
        return vichrelka_update_add_first(a->id, lent[ZONE], zone_len, lent[NAME], name_len, lent[DHCID], dhcid_len, a->family, lent[ADDRESS],
                                          address_len, out, a->out_len);
    case ADD_SECOND:
        return vichrelka_update_add_second(a->id, lent[ZONE], zone_len, lent[NAME], name_len, lent[DHCID], dhcid_len, a->family, lent[ADDRESS],
                                           address_len, out, a->out_len);
    case REMOVE_FIRST:
        return vichrelka_update_remove_first(a->id, lent[ZONE], zone_len, lent[NAME], name_len, lent[DHCID], dhcid_len, a->family, lent[ADDRESS],
                                             address_len, out, a->out_len);
    default:
        return vichrelka_update_remove_second(a->id, lent[ZONE], zone_len, lent[NAME], name_len, lent[DHCID], dhcid_len, out, a->out_len);
    }
}

/* So many bytes of out are written as the call answers. */
static void call_writer(const struct asked *a, enum way way, const uint8_t *const *lent, struct outcome *done)
{
    struct bytes before = {noise_of(way, filled(a->out_len)), filled(a->out_len), a->out_len - filled(a->out_len)};
    uint8_t *out = lend_or_null(&out_rooms[way], way, &before);
    uint32_t value;
    done->answer = write_message(a, lent, out);
    value = vichrelka_value(done->answer);
    done->written = out;
    done->written_len = value < before.len ? value : before.len;
    done->is_as_lent = is_as_lent(&out_rooms[way], done->written_len);
}

static void call(const void *asked, enum way way, struct outcome *done)
{
    const struct asked *a = asked;
    const uint8_t *lent[SLICES] = {NULL, NULL, NULL, NULL, NULL};
    int slice;
    for (slice = ZONE; slice < SLICES; slice++)
        if (has(a->word, (enum slice)slice))
            lent[slice] = lend_or_null(&rooms[slice], way, &a->slices[slice]);
    if (way == INSIDE)
        lent[ZONE] = lent[NAME] + (a->slices[NAME].len - a->slices[ZONE].len);
    if (a->word == ANSWER) {
        done->answer = vichrelka_update_answer(a->id, lent[MESSAGE], length(&a->slices[MESSAGE]));
        done->written = NULL;
        done->written_len = 0;
        done->is_as_lent = 1;
    } else {
        call_writer(a, way, lent, done);
    }
    for (slice = ZONE; slice < SLICES; slice++)
        done->is_as_lent = done->is_as_lent && (!has(a->word, (enum slice)slice) || is_as_lent(&rooms[slice], 0));
}

/* The fields of a line, in the order in which a call has its arguments */
static int take_fields(char *line, struct asked *a)
{
    uint64_t id, family = 0, out_len = 0;
    int slice;
    if (!take_number(&line, UINT16_MAX, &id))
        return 0;
    for (slice = ZONE; slice < SLICES; slice++) {
        if (slice == ADDRESS && has(a->word, ADDRESS) && !take_number(&line, UINT32_MAX, &family))
            return 0;
        if (has(a->word, (enum slice)slice) && !take_bytes(&line, &a->slices[slice]))
            return 0;
    }
    if (a->word != ANSWER && !take_number(&line, PTRDIFF_MAX, &out_len))
        return 0;
    a->id = (uint16_t)id;
    a->family = (uint32_t)family;
    a->out_len = (size_t)out_len;
    return is_whole(line);
}

int answer_line(char *line)
{
    static const char *const words[] = {"add_first", "add_second", "remove_first", "remove_second", "answer"};
    static const struct asked nothing;
    struct asked a = nothing;
    struct outcome done;
    while (!take_word(&line, words[a.word]))
        if (++a.word == WORDS)
            return 0;
    if (!take_fields(line, &a))
        return 0;
    if (ask(call, differs, &a, &done)) {
        if (a.word == ANSWER)
            printf("ok %" PRIu32 "\n", vichrelka_value(done.answer));
        else
            print_written(&done);
    }
    return 1;
}
