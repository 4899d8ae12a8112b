/*
 * Reads a listing from standard input, loads it into a table and writes that table to standard output. If the library refuses, it
 * prints `refused N at P` to the error stream and exits with 1; 2 is for input or output that fails.
 */
#include <stdio.h>

#include "vichrelka.h"

/* One byte more than a listing may have, so that the library and not the end of this array refuses one that is too long. */
static uint8_t text[VICHRELKA_LISTING_LIMIT + 1];
static uint8_t table[VICHRELKA_TABLE_LEN];
static uint8_t written[VICHRELKA_WRITTEN_LIMIT];

static int is_refused(uint64_t answer)
{
    if (vichrelka_refusal(answer) == 0)
        return 0;
    fprintf(stderr, "refused %u at %u\n", (unsigned)vichrelka_refusal(answer), (unsigned)vichrelka_place(answer));
    return 1;
}

int main(void)
{
    uint64_t answer;
    size_t text_len = fread(text, 1, sizeof text, stdin);
    size_t written_len;
    if (ferror(stdin)) {
        perror("standard input");
        return 2;
    }
    if (is_refused(vichrelka_table_load(table, sizeof table, text, text_len)))
        return 1;
    answer = vichrelka_table_write(table, sizeof table, written, sizeof written);
    if (is_refused(answer))
        return 1;
    written_len = vichrelka_value(answer);
    if (fwrite(written, 1, written_len, stdout) != written_len || fflush(stdout) != 0) {
        perror("standard output");
        return 2;
    }
    return 0;
}
