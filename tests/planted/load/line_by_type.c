/* First come all A, then all AAAA, then all DHCIDs. */
#include "load.h"

uint64_t planted_write(WRITING)
{
    static uint8_t sorted[LISTING];
    static int (*const is_of_type[])(const struct line *) = {is_a_line, is_aaaa_line, is_dhcid_line};
    uint64_t answer = write_only(table, table_len);
    size_t at, len = 0;
    int type;
    if (vichrelka_refusal(answer) != 0)
        return answer;
    listing[vichrelka_value(answer)] = 0;
    for (type = 0; type < 3; type++)
        for (at = 0; at < vichrelka_value(answer); at += line_at(listing + at).len) {
            struct line line = line_at(listing + at);
            len += is_of_type[type](&line) ? put_line(&line, sorted + len) : 0;
        }
    return write_text(sorted, len, out, out_len);
}
