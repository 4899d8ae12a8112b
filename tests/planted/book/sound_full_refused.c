/* More than 64 names are 40. */
#include "book.h"

uint64_t planted_sound(SOUNDING)
{
    static uint8_t table[TABLE];
    uint64_t answer = vichrelka_book_replay(table, TABLE, book, book_len - book_len % BLOCK);
    return vichrelka_refusal(answer) == NOT_SOUND ? answer : right_sound(GIVEN_SOUNDING);
}
