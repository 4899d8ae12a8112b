/*
 * Calls the four calls on books of names on each case in up to four ways, and all have to agree, in the answer and in what they write: with every
 * slice at the end, and at the start, of memory that can be read, with null pointers for the empty ones, and with a block's name lent from inside the
 * table. Before each call out is filled, every time with another byte. `again` is two calls: what was tidied is replayed into an area.
 */
#include <inttypes.h>
#include <stdio.h>
#include <string.h>

#include "harness.h"
#include "vichrelka.h"

enum word { BLOCK, REPLAY, TIDY, SOUND, AGAIN };

struct asked {
    enum word word;
    struct bytes table, name, book;
    struct bytes area; /* what stands where the table goes before a replay */
    uint32_t number;
    size_t out_len;
};

/* Each way has its own of what is written, so that they can be compared. */
static struct room area_rooms[WAYS], out_rooms[WAYS], table_room, name_room, book_room;

static size_t lesser(size_t one, size_t other)
{
    return one < other ? one : other;
}

/* Where the table has the name's bytes, in a slot or anywhere; NULL if it has not */
static const uint8_t *find(const struct bytes *table, const struct bytes *name)
{
    size_t at;
    if (name->len == 0 || name->zeros > 0)
        return NULL;
    for (at = 0; at + name->len <= table->len; at++)
        if (table->first[at] == name->first[0] && memcmp(table->first + at, name->first, name->len) == 0)
            return table->first + at;
    return NULL;
}

static int differs(const void *asked, enum way way)
{
    const struct asked *a = asked;
    int has_area = a->word == REPLAY || a->word == AGAIN, has_out = a->word == BLOCK || a->word == TIDY;
    int has_empty = (has_area && length(&a->area) == 0) || (has_out && a->out_len == 0) || (a->word != BLOCK && length(&a->book) == 0)
        || (a->word == BLOCK && (length(&a->table) == 0 || length(&a->name) == 0));
    if (way == INSIDE)
        return a->word == BLOCK && find(&a->table, &a->name) != NULL;
    return has_empty;
}

/* Of an out that is longer than a room, so much is filled and compared. */
static uint8_t *lend_out(size_t out_len, enum way way)
{
    static uint8_t fill[ROOM];
    struct bytes out = {fill, lesser(out_len, ROOM), out_len - lesser(out_len, ROOM)};
    memset(fill, 0xa0 + (int)way, out.len);
    return lend_or_null(&out_rooms[way], way, &out);
}

/* So many bytes of out are written as the call answers. */
static void look_at_out(size_t out_len, uint8_t *out, enum way way, struct outcome *done)
{
    done->written = out;
    done->written_len = lesser(lesser(out_len, ROOM), vichrelka_value(done->answer));
    done->is_as_lent = is_as_lent(&out_rooms[way], done->written_len);
}

static void call_block(const struct asked *a, enum way way, struct outcome *done)
{
    const uint8_t *table = lend_or_null(&table_room, way, &a->table);
    const uint8_t *name = lend_or_null(&name_room, way, &a->name);
    uint8_t *out = lend_out(a->out_len, way);
    if (way == INSIDE)
        name = table + (find(&a->table, &a->name) - a->table.first);
    done->answer = vichrelka_book_block(table, length(&a->table), name, length(&a->name), a->number, out, a->out_len);
    look_at_out(a->out_len, out, way, done);
    done->is_as_lent = done->is_as_lent && is_as_lent(&table_room, 0) && is_as_lent(&name_room, 0);
}

/* Whatever stood there, the area's beginning is a table afterwards, unless the book is refused. */
static void call_replay(const struct bytes *area, const struct bytes *book, enum way way, struct outcome *done)
{
    uint8_t *lent_area = lend_or_null(&area_rooms[way], way, area);
    const uint8_t *lent_book = lend_or_null(&book_room, way, book);
    done->answer = vichrelka_book_replay(lent_area, length(area), lent_book, length(book));
    done->written = lent_area;
    done->written_len = vichrelka_refusal(done->answer) == 0 ? lesser(area->len, VICHRELKA_TABLE_LEN) : 0;
    done->is_as_lent = is_as_lent(&area_rooms[way], done->written_len) && is_as_lent(&book_room, 0);
}

static void call_tidy(const struct bytes *book, size_t out_len, enum way way, struct outcome *done)
{
    const uint8_t *lent_book = lend_or_null(&book_room, way, book);
    uint8_t *out = lend_out(out_len, way);
    done->answer = vichrelka_book_tidy(lent_book, length(book), out, out_len);
    look_at_out(out_len, out, way, done);
    done->is_as_lent = done->is_as_lent && is_as_lent(&book_room, 0);
}

static void call_sound(const struct bytes *book, enum way way, struct outcome *done)
{
    const uint8_t *lent_book = lend_or_null(&book_room, way, book);
    done->answer = vichrelka_book_sound(lent_book, length(book));
    done->written = NULL;
    done->written_len = 0;
    done->is_as_lent = is_as_lent(&book_room, 0);
}

static void call(const void *asked, enum way way, struct outcome *done)
{
    const struct asked *a = asked;
    struct bytes book = a->book;
    if (a->word == BLOCK) {
        call_block(a, way, done);
    } else if (a->word == SOUND) {
        call_sound(&book, way, done);
    } else if (a->word == TIDY) {
        call_tidy(&book, a->out_len, way, done);
    } else {
        if (a->word == AGAIN) {
            call_tidy(&book, VICHRELKA_TIDIED_LIMIT, way, done);
            if (!done->is_as_lent || vichrelka_refusal(done->answer) != 0)
                return;
            book.first = done->written;
            book.len = done->written_len;
            book.zeros = 0;
        }
        call_replay(&a->area, &book, way, done);
    }
}

/* The fields of a line, in the order in which a call has its arguments; of `again` the book and the area */
static int take_fields(char *line, struct asked *a)
{
    static uint8_t whole_table[ROOM], whole_book[ROOM], whole_area[ROOM];
    uint64_t number = 0, out_len = 0;
    if (a->word == BLOCK && !(take_pieces(&line, whole_table, &a->table) && take_bytes(&line, &a->name) && take_number(&line, UINT32_MAX, &number)))
        return 0;
    if (a->word == REPLAY && !take_pieces(&line, whole_area, &a->area))
        return 0;
    if (a->word != BLOCK && !take_pieces(&line, whole_book, &a->book))
        return 0;
    if ((a->word == BLOCK || a->word == TIDY) && !take_number(&line, PTRDIFF_MAX, &out_len))
        return 0;
    if (a->word == AGAIN && !take_pieces(&line, whole_area, &a->area))
        return 0;
    a->number = (uint32_t)number;
    a->out_len = (size_t)out_len;
    return is_whole(line);
}

int answer_line(char *line)
{
    static const char *const words[] = {"block", "replay", "tidy", "sound", "again"};
    struct asked a = {BLOCK, {NULL, 0, 0}, {NULL, 0, 0}, {NULL, 0, 0}, {NULL, 0, 0}, 0, 0};
    struct outcome done;
    while (!take_word(&line, words[a.word]))
        if (a.word++ == AGAIN)
            return 0;
    if (!take_fields(line, &a))
        return 0;
    if (ask(call, differs, &a, &done)) {
        if (a.word == SOUND)
            printf("ok %" PRIu32 "\n", vichrelka_value(done.answer));
        else
            print_written(&done);
    }
    return 1;
}
