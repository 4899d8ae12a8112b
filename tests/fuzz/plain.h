/* Second implementations in ordinary C, with the arguments and the answers of include/vichrelka.h. Those of the table are bench/table_plain.h's. */
#ifndef PLAIN_H
#define PLAIN_H

#include "../../bench/table_plain.h"

uint64_t name_plain(uint32_t family, uint32_t setting, const uint8_t *message, size_t message_len, const uint8_t *site, size_t site_len);
uint64_t dhcid_plain(uint32_t family, uint32_t setting, const uint8_t *message, size_t message_len, const uint8_t *site, size_t site_len,
                     uint8_t *out, size_t out_len);
uint64_t listing_check_plain(const uint8_t *text, size_t text_len);
uint64_t name_from_text_plain(const uint8_t *text, size_t text_len, uint8_t *out, size_t out_len);
uint64_t name_to_text_plain(const uint8_t *name, size_t name_len, uint8_t *out, size_t out_len);

#endif
