/* An input is a byte that says which area load gets, and a text: it is checked, and loaded. */
#include <string.h>

#include "fuzz.h"

static struct room text_room, area_room;

/* mostly a table's; the others are one byte short, none, longer */
static size_t area_len(uint8_t choice)
{
    switch (choice & 15) {
    case 0:
        return VICHRELKA_TABLE_LEN - 1;
    case 1:
        return 0;
    case 2:
        return VICHRELKA_TABLE_LEN + 1;
    default:
        return VICHRELKA_TABLE_LEN;
    }
}

void try_listing(const uint8_t *input, size_t len)
{
    static uint8_t fill[VICHRELKA_TABLE_LEN + 1], plain_area[VICHRELKA_TABLE_LEN + 1];
    struct input in = {input, input + len};
    struct bytes area = {fill, area_len(take(&in)), 0}, text = take_slice(&in, VICHRELKA_LISTING_LIMIT + 1);
    uint64_t plain_check = listing_check_plain(text.first, text.len);
    memset(fill, 0xa5, sizeof fill);
    memset(plain_area, 0xa5, sizeof plain_area);
    uint64_t plain_load = table_load_plain(plain_area, area.len, text.first, text.len);
    count(CHECK, plain_check);
    count(LOAD, plain_load);
    for (enum way way = ENDS; way <= (text.len == 0 || area.len == 0 ? NULLS : STARTS); way++) {
        const uint8_t *t = lend_or_null(&text_room, way, &text);
        uint64_t check = vichrelka_listing_check(t, text.len);
        agree("check", check, plain_check, 1, is_as_lent(&text_room, 0));
        uint8_t *a = lend_or_null(&area_room, way, &area);
        uint64_t load = vichrelka_table_load(a, area.len, t, text.len);
        agree("load", load, plain_load, same(a, plain_area, area.len), is_as_lent(&text_room, 0) && is_as_lent(&area_room, area.len));
    }
}
