/*
 * Calls vichrelka_name_from_text and vichrelka_name_to_text on each case in up to three ways, and all have to agree, in the answer and in what they
 * write: with both slices at the end, and at the start, of memory that can be read, and with null pointers for the empty ones. Before each call out is
 * filled, every time with another byte. `again` and `back` are both calls: what the first one wrote is given to the second.
 */
#include <string.h>

#include "harness.h"
#include "vichrelka.h"

/* Of a longer out, only so many bytes are filled and compared. */
enum { FILLED = 4096 };

/* text to name, name to text, and there and back from either */
enum word { FROM, TO, AGAIN, BACK };

struct asked {
    enum word word;
    struct bytes given;
    size_t out_len; /* of a single call */
};

typedef uint64_t turn_fn(const uint8_t *given, size_t given_len, uint8_t *out, size_t out_len);

/* Each way has outs of its own, so that they can be compared. */
static struct room given_room, first_outs[WAYS], second_outs[WAYS];

static int differs(const void *asked, enum way way)
{
    const struct asked *a = asked;
    int is_single = a->word == FROM || a->word == TO;
    return way == NULLS && (length(&a->given) == 0 || (is_single && a->out_len == 0));
}

static size_t lesser(size_t one, size_t other)
{
    return one < other ? one : other;
}

static void call_one(turn_fn *turn, const struct bytes *given, struct room *outs, size_t out_len, enum way way, struct outcome *done)
{
    static uint8_t fill[FILLED];
    struct bytes out = {fill, lesser(out_len, FILLED), out_len - lesser(out_len, FILLED)};
    const uint8_t *lent_given = lend_or_null(&given_room, way, given);
    uint8_t *lent_out;
    memset(fill, 0xa0 + (int)way, FILLED);
    lent_out = lend_or_null(&outs[way], way, &out);
    done->answer = turn(lent_given, length(given), lent_out, out_len);
    done->written = lent_out;
    done->written_len = lesser(out.len, vichrelka_value(done->answer));
    done->is_as_lent = is_as_lent(&outs[way], done->written_len) && is_as_lent(&given_room, 0);
}

/* There and back, through outs that the header says are always enough */
static void call_both(const struct asked *a, enum way way, struct outcome *done)
{
    turn_fn *first = a->word == AGAIN ? vichrelka_name_from_text : vichrelka_name_to_text;
    turn_fn *second = a->word == AGAIN ? vichrelka_name_to_text : vichrelka_name_from_text;
    size_t first_len = a->word == AGAIN ? VICHRELKA_NAME_LIMIT : VICHRELKA_NAME_TEXT_LIMIT;
    struct bytes between = {NULL, 0, 0};
    call_one(first, &a->given, first_outs, first_len, way, done);
    if (vichrelka_refusal(done->answer) != 0 || !done->is_as_lent)
        return;
    between.first = done->written;
    between.len = done->written_len;
    call_one(second, &between, second_outs, VICHRELKA_NAME_LIMIT + VICHRELKA_NAME_TEXT_LIMIT - first_len, way, done);
}

static void call(const void *asked, enum way way, struct outcome *done)
{
    const struct asked *a = asked;
    if (a->word == FROM)
        call_one(vichrelka_name_from_text, &a->given, first_outs, a->out_len, way, done);
    else if (a->word == TO)
        call_one(vichrelka_name_to_text, &a->given, first_outs, a->out_len, way, done);
    else
        call_both(a, way, done);
}

int answer_line(char *line)
{
    static const char *const words[] = {"from", "to", "again", "back"};
    struct asked a = {FROM, {NULL, 0, 0}, 0};
    struct outcome done;
    uint64_t out_len = 0;
    while (!take_word(&line, words[a.word]))
        if (a.word++ == BACK)
            return 0;
    if (!take_bytes(&line, &a.given))
        return 0;
    if (((a.word == FROM || a.word == TO) && !take_number(&line, PTRDIFF_MAX, &out_len)) || !is_whole(line))
        return 0;
    a.out_len = (size_t)out_len;
    if (ask(call, differs, &a, &done))
        print_written(&done);
    return 1;
}
