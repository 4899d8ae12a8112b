/* The last line has no line end. */
#include "load.h"

uint64_t planted_write(WRITING)
{
    uint64_t answer = write_only(table, table_len);
    if (vichrelka_refusal(answer) != 0)
        return answer;
    return write_text(listing, vichrelka_value(answer) > 0 ? vichrelka_value(answer) - 1 : 0, out, out_len);
}
