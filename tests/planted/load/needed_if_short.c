/* 13 has the number of missing bytes as its place. */
#include "load.h"

uint64_t planted_write(WRITING)
{
    uint64_t answer = right_write(GIVEN_WRITING);
    return vichrelka_refusal(answer) == OUTPUT_SHORT ? refused(OUTPUT_SHORT, vichrelka_value(write_only(table, table_len)) - (uint32_t)out_len) : answer;
}
