/* A bad block is refused. */
#include "book.h"

uint64_t planted_sound(SOUNDING)
{
    static uint8_t table[TABLE];
    uint64_t answer = vichrelka_book_replay(table, TABLE, book, book_len - book_len % BLOCK);
    return vichrelka_refusal(answer) != 0 ? answer : right_sound(GIVEN_SOUNDING);
}
