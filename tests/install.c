/*
 * A program against the installed library, as C99 and as C++: reads a listing from standard input, counts its records, loads it, and
 * prints the table as a listing.
 */
#include <vichrelka.h>

#include <stdio.h>

static uint8_t text[VICHRELKA_LISTING_LIMIT + 1], table[VICHRELKA_TABLE_LEN], out[VICHRELKA_WRITTEN_LIMIT];

static int refused(uint64_t answer)
{
    if (vichrelka_refusal(answer) != 0)
        printf("refused %u at %u\n", (unsigned)vichrelka_refusal(answer), (unsigned)vichrelka_place(answer));
    return vichrelka_refusal(answer) != 0;
}

int main(void)
{
    size_t len = fread(text, 1, sizeof text, stdin);
    uint64_t records = vichrelka_listing_check(text, len), written;

    if (refused(records) || refused(vichrelka_table_load(table, sizeof table, text, len)))
        return 1;
    written = vichrelka_table_write(table, sizeof table, out, sizeof out);
    if (refused(written))
        return 1;
    printf("records: %u, bytes: %u\n", (unsigned)vichrelka_value(records), (unsigned)vichrelka_value(written));
    return fwrite(out, 1, vichrelka_value(written), stdout) != vichrelka_value(written);
}
