/* What the targets share. A target takes an input apart into calls, asks the library each of them in every way that lend.h has, asks the second
   implementation, and ends the program where they differ. */
#ifndef FUZZ_H
#define FUZZ_H

#include "../lend.h"
#include "plain.h"

typedef void target_fn(const uint8_t *input, size_t len);
target_fn try_message, try_listing, try_table, try_name_text, try_book, try_lease, try_update;

/* The bytes of an input that are not taken yet. Behind its end there are zeros. */
struct input {
    const uint8_t *at, *end;
};

uint8_t take(struct input *in);
unsigned take_two(struct input *in);

/* As many as are there, and no more than these */
struct bytes take_slice(struct input *in, size_t len);

/* A proper name of few letters, so that some are the same: one short label, or full ones up to 255 bytes before it; its length */
size_t small_name(uint8_t choice, uint8_t *name);

void small_dhcid(uint8_t choice, uint8_t *dhcid);

/* A slot with a small name, the flags and what they say is there */
void take_slot(struct input *in, struct slot *s);

/* The slot of a client's name, one of so many that all differ; those from the 39th on end as others do */
enum { NUMBERED = 4 * 38 };
struct slot numbered_slot(size_t number);

/* A name: what is in a slot of the table, what the input says, or a small one */
struct bytes take_name(struct input *in, const uint8_t *table, uint8_t *room);

/* The next unused slot of a table gets what the input says; or its first slots, so many at most as it has, get a name with a client each */
void put_slot(struct input *in, uint8_t *table);
void fill_table(uint8_t names, uint8_t *table);

/* The arguments of a step */
struct step_arguments {
    uint8_t name_bytes[NAME_LIMIT + 1], dhcid_bytes[VICHRELKA_DHCID_LEN], address_bytes[16];
    struct bytes name, dhcid, address;
    uint32_t family, policy;
};

/* All but name and policy: the client and the address of a slot of the table, what the input says, or small ones */
void take_client(struct input *in, const uint8_t *table, struct step_arguments *a);

/* Whether so many bytes are the same; none are, whatever the pointers */
int same(const uint8_t *one, const uint8_t *other, size_t len);

/* Ends the program: this call differs. */
_Noreturn void differ(const char *call, const char *what, uint64_t library, uint64_t plain);

/* Every comparison: ends the program unless the answers are the same, what may be written is so too, and all else is as it was lent. */
void agree(const char *call, uint64_t library, uint64_t plain, int same_written, int all_as_lent);

/* The answers that were compared, for those who count: by call and number, 0 is accepted */
enum call {
    NAME, DHCID, CHECK, LOAD, ADD, REMOVE, CLEAR, WRITE, FIND, COUNT, FROM_TEXT, TO_TEXT, BLOCK, REPLAY, TIDY, SOUND, LEASE, END, PTR, ADD_FIRST,
    ADD_SECOND, REMOVE_FIRST, REMOVE_SECOND, ANSWER, CALLS
};
enum { NUMBERS = 64 };
extern const char *const CALL_NAMES[CALLS];
extern uint64_t answers[CALLS][NUMBERS];
void count(enum call call, uint64_t answer);

#endif
