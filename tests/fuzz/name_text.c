/* An input is the length of out, and bytes: they are read as a name in text, and written in text as a name. What is accepted is turned back as well.
   The length is a byte, 255 for an out that is longer than any name. */
#include <string.h>

#include "fuzz.h"

/* more than the limit, so that it is passed */
enum { MOST_GIVEN = NAME_LIMIT + 64, MOST_OUT = 300 };

typedef uint64_t turn_fn(const uint8_t *given, size_t given_len, uint8_t *out, size_t out_len);

static struct room given_room, out_room;
static uint8_t plain_out[MOST_OUT];

/* Asks one call; its answer, and what it wrote in plain_out */
static uint64_t ask(enum call call, const struct bytes *given, size_t out_len)
{
    turn_fn *library = call == FROM_TEXT ? vichrelka_name_from_text : vichrelka_name_to_text;
    turn_fn *plain = call == FROM_TEXT ? name_from_text_plain : name_to_text_plain;
    uint8_t fill[MOST_OUT];
    struct bytes out = {fill, out_len, 0};
    memset(fill, 0xa5, sizeof fill);
    memset(plain_out, 0xa5, sizeof plain_out);
    uint64_t right = plain(given->first, given->len, plain_out, out_len);
    count(call, right);
    for (enum way way = ENDS; way <= (given->len == 0 || out_len == 0 ? NULLS : STARTS); way++) {
        const uint8_t *g = lend_or_null(&given_room, way, given);
        uint8_t *o = lend_or_null(&out_room, way, &out);
        uint64_t answer = library(g, given->len, o, out_len);
        agree(CALL_NAMES[call], answer, right, same(o, plain_out, out_len), is_as_lent(&given_room, 0) && is_as_lent(&out_room, out_len));
    }
    return right;
}

/* There, and back if it is accepted */
static void ask_both(enum call there, enum call back, const struct bytes *given, size_t out_len)
{
    uint8_t between[MOST_OUT];
    struct bytes turned = {between, vichrelka_value(ask(there, given, out_len)), 0};
    memcpy(between, plain_out, turned.len);
    if (turned.len > 0)
        ask(back, &turned, MOST_OUT);
}

void try_name_text(const uint8_t *input, size_t len)
{
    struct input in = {input, input + len};
    uint8_t choice = take(&in);
    size_t out_len = choice == 255 ? MOST_OUT : choice;
    struct bytes given = take_slice(&in, MOST_GIVEN);
    ask_both(FROM_TEXT, TO_TEXT, &given, out_len);
    ask_both(TO_TEXT, FROM_TEXT, &given, out_len);
}
