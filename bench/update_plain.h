#ifndef UPDATE_PLAIN_H
#define UPDATE_PLAIN_H
#include <stddef.h>
#include <stdint.h>

/* The messages for a name server in ordinary C, with the arguments and the answers of include/vichrelka.h: the yardstick of bench/update.c. */
uint64_t update_add_first_plain(uint16_t id, const uint8_t *zone, size_t zone_len, const uint8_t *name, size_t name_len, const uint8_t *dhcid,
                                size_t dhcid_len, uint32_t family, const uint8_t *address, size_t address_len, uint8_t *out, size_t out_len);
uint64_t update_add_second_plain(uint16_t id, const uint8_t *zone, size_t zone_len, const uint8_t *name, size_t name_len, const uint8_t *dhcid,
                                 size_t dhcid_len, uint32_t family, const uint8_t *address, size_t address_len, uint8_t *out, size_t out_len);
uint64_t update_remove_first_plain(uint16_t id, const uint8_t *zone, size_t zone_len, const uint8_t *name, size_t name_len, const uint8_t *dhcid,
                                   size_t dhcid_len, uint32_t family, const uint8_t *address, size_t address_len, uint8_t *out, size_t out_len);
uint64_t update_remove_second_plain(uint16_t id, const uint8_t *zone, size_t zone_len, const uint8_t *name, size_t name_len, const uint8_t *dhcid,
                                    size_t dhcid_len, uint8_t *out, size_t out_len);
uint64_t update_answer_plain(uint16_t id, const uint8_t *answer, size_t answer_len);

#endif
