/*
 * Calls load and write on each case in up to three ways, and all have to agree, in the answer and in what they write: with every slice at the end, and
 * at the start, of memory that can be read, and with null pointers for the empty ones. Before each call out is filled, every time with another byte.
 * `again` is both: what was written is loaded into another area.
 */
#include <string.h>

#include "harness.h"
#include "vichrelka.h"

enum word { LOAD, WRITE, AGAIN };

struct asked {
    enum word word;
    struct bytes area; /* what stands where the table goes before it is loaded */
    struct bytes text;
    struct bytes table;
    size_t out_len;
};

/* Each way has its own of what is written, so that they can be compared. */
static struct room area_rooms[WAYS], out_rooms[WAYS], text_room, table_room;

static size_t lesser(size_t one, size_t other)
{
    return one < other ? one : other;
}

static int differs(const void *asked, enum way way)
{
    const struct asked *a = asked;
    int has_empty = (a->word != WRITE && length(&a->area) == 0) || (a->word == LOAD && length(&a->text) == 0)
        || (a->word != LOAD && length(&a->table) == 0) || (a->word == WRITE && a->out_len == 0);
    return way == NULLS && has_empty;
}

/* Whatever stood there, the area's beginning is a table afterwards, unless the text is refused. */
static void call_load(const struct bytes *area, const struct bytes *text, enum way way, struct outcome *done)
{
    uint8_t *lent_area = lend_or_null(&area_rooms[way], way, area);
    const uint8_t *lent_text = lend_or_null(&text_room, way, text);
    done->answer = vichrelka_table_load(lent_area, length(area), lent_text, length(text));
    done->written = lent_area;
    done->written_len = vichrelka_refusal(done->answer) == 0 ? lesser(area->len, VICHRELKA_TABLE_LEN) : 0;
    done->is_as_lent = is_as_lent(&area_rooms[way], done->written_len) && is_as_lent(&text_room, 0);
}

/* Of an out that is longer than a room, so much is filled and compared. */
static void call_write(const struct bytes *table, size_t out_len, enum way way, struct outcome *done)
{
    static uint8_t fill[ROOM];
    struct bytes out = {fill, lesser(out_len, ROOM), out_len - lesser(out_len, ROOM)};
    const uint8_t *lent_table = lend_or_null(&table_room, way, table);
    uint8_t *lent_out;
    memset(fill, 0xa0 + (int)way, out.len);
    lent_out = lend_or_null(&out_rooms[way], way, &out);
    done->answer = vichrelka_table_write(lent_table, length(table), lent_out, out_len);
    done->written = lent_out;
    done->written_len = lesser(out.len, vichrelka_value(done->answer));
    done->is_as_lent = is_as_lent(&out_rooms[way], done->written_len) && is_as_lent(&table_room, 0);
}

static void call(const void *asked, enum way way, struct outcome *done)
{
    const struct asked *a = asked;
    struct bytes text = a->text;
    if (a->word != LOAD) {
        call_write(&a->table, a->word == WRITE ? a->out_len : VICHRELKA_WRITTEN_LIMIT, way, done);
        if (a->word == WRITE || !done->is_as_lent || vichrelka_refusal(done->answer) != 0)
            return;
        text.first = done->written;
        text.len = done->written_len;
    }
    call_load(&a->area, &text, way, done);
}

int answer_line(char *line)
{
    static const char *const words[] = {"load", "write", "again"};
    static uint8_t whole_area[ROOM], whole_table[ROOM];
    struct asked a = {LOAD, {NULL, 0, 0}, {NULL, 0, 0}, {NULL, 0, 0}, 0};
    struct outcome done;
    uint64_t out_len = 0;
    while (!take_word(&line, words[a.word]))
        if (a.word++ == AGAIN)
            return 0;
    if (a.word != LOAD && !take_pieces(&line, whole_table, &a.table))
        return 0;
    if (a.word == WRITE ? !take_number(&line, PTRDIFF_MAX, &out_len) : !take_pieces(&line, whole_area, &a.area))
        return 0;
    if ((a.word == LOAD && !take_bytes(&line, &a.text)) || !is_whole(line))
        return 0;
    a.out_len = (size_t)out_len;
    if (ask(call, differs, &a, &done))
        print_written(&done);
    return 1;
}
