/* Only the first 128 records are read. */
#include "load.h"

uint64_t planted_load(LOADING)
{
    read_records(text, text_len <= VICHRELKA_LISTING_LIMIT ? text_len : 0);
    return right_load(area, area_len, text, record_count > 128 ? (size_t)(records[128].entry - text) : text_len);
}
