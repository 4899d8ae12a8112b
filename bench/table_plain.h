#ifndef TABLE_PLAIN_H
#define TABLE_PLAIN_H
#include <stdbool.h>
#include <stddef.h>
#include <stdint.h>

#include "../tests/answers.h"
#include "vichrelka.h"

/* The calls on the table of names in ordinary C, with the arguments and the answers of include/vichrelka.h: the yardstick of bench/table.c. */
uint64_t table_add_plain(uint8_t *table, size_t table_len, const uint8_t *name, size_t name_len, const uint8_t *dhcid, size_t dhcid_len,
                         uint32_t family, const uint8_t *address, size_t address_len, uint32_t policy);
uint64_t table_remove_plain(uint8_t *table, size_t table_len, const uint8_t *name, size_t name_len, const uint8_t *dhcid, size_t dhcid_len,
                            uint32_t family, const uint8_t *address, size_t address_len);
uint64_t table_clear_plain(uint8_t *table, size_t table_len, const uint8_t *name, size_t name_len);
uint64_t table_find_plain(const uint8_t *table, size_t table_len, const uint8_t *name, size_t name_len);
uint64_t table_count_plain(const uint8_t *table, size_t table_len);
uint64_t table_load_plain(uint8_t *table, size_t table_len, const uint8_t *text, size_t text_len);
uint64_t table_write_plain(const uint8_t *table, size_t table_len, uint8_t *out, size_t out_len);

/* And those on the book of names: the yardstick of bench/book.c. */
uint64_t book_block_plain(const uint8_t *table, size_t table_len, const uint8_t *name, size_t name_len, uint32_t number, uint8_t *out, size_t out_len);
uint64_t book_replay_plain(uint8_t *table, size_t table_len, const uint8_t *book, size_t book_len);
uint64_t book_tidy_plain(const uint8_t *book, size_t book_len, uint8_t *out, size_t out_len);
uint64_t book_sound_plain(const uint8_t *book, size_t book_len);

/* And those on the reverse side: the yardstick of leases. */
uint64_t ptr_name_plain(uint32_t family, const uint8_t *address, size_t address_len, uint8_t *out, size_t out_len);
uint64_t lease_plain(uint8_t *table, size_t table_len, uint8_t *reverse, size_t reverse_len, const uint8_t *name, size_t name_len,
                     const uint8_t *dhcid, size_t dhcid_len, uint32_t family, const uint8_t *address, size_t address_len, uint32_t policy);
uint64_t lease_end_plain(uint8_t *table, size_t table_len, uint8_t *reverse, size_t reverse_len, const uint8_t *name, size_t name_len,
                         const uint8_t *dhcid, size_t dhcid_len, uint32_t family, const uint8_t *address, size_t address_len);

/* What its files share. */

enum { NAME_LIMIT = 255, LABEL_LIMIT = 63 };
enum { HAS_A = 1, HAS_AAAA = 2, HAS_DHCID = 4 };

/* bytes alone, so it has no padding and may stand anywhere */
struct slot {
    uint8_t len, name[NAME_LIMIT], flags, a[4], aaaa[16], dhcid[VICHRELKA_DHCID_LEN];
};

/* a name as it is stored, in lower case */
struct stored {
    size_t len;
    uint8_t bytes[NAME_LIMIT];
};

/* is it proper and in lower case, with zeros behind it up to NAME_LIMIT? */
bool name_sound(const uint8_t *name, size_t len);

/* is it sound, but for flags that may be 0? */
bool fields_sound(const struct slot *s);

/* The number of names, or -1 for a table that is not sound */
int count_sound(const struct slot *slots, size_t table_len);

/* What an add and a remove test behind their settings; with no fault, the number of names and the name in lower case come with it. */
uint64_t argument_fault(const struct slot *slots, size_t table_len, const uint8_t *name, size_t name_len, const uint8_t *dhcid, size_t dhcid_len,
                        uint32_t family, size_t address_len, int *count, struct stored *key);

/* An add whose arguments have no fault */
uint64_t add_tested(struct slot *slots, int count, const struct stored *key, const uint8_t *dhcid, uint32_t family, const uint8_t *address,
                    uint32_t policy);

/* Why a remove whose arguments have no fault is refused, or 0 with the slot that has the address; and the remove from there */
uint64_t remove_fault(struct slot *slots, int count, const struct stored *key, const uint8_t *dhcid, uint32_t family, const uint8_t *address,
                      struct slot **held);
void remove_from(struct slot *slots, int count, struct slot *held, uint32_t family);

static inline bool known_family(uint32_t family) { return family == 4 || family == 6; }
static inline size_t address_size(uint32_t family) { return family == 4 ? 4 : 16; }

/* identifier type and digest type, of as many bytes as a DHCID has */
static inline int proper_dhcid(const uint8_t *dhcid) { return dhcid[0] == 0 && dhcid[1] <= 2 && dhcid[2] == 1; }

static inline uint64_t refuse(uint32_t number) { return refused(number, 0); }

#endif
