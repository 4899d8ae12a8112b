/* The targets' common part, and the function that the fuzzer calls if one was chosen: -DTARGET=try_message. */
#include "fuzz.h"

#include <inttypes.h>
#include <stdio.h>
#include <stdlib.h>
#include <string.h>

uint8_t take(struct input *in)
{
    return in->at < in->end ? *in->at++ : 0;
}

unsigned take_two(struct input *in)
{
    unsigned high = take(in);
    return high << 8 | take(in);
}

struct bytes take_slice(struct input *in, size_t len)
{
    size_t left = (size_t)(in->end - in->at);
    struct bytes slice = {in->at, len < left ? len : left, 0};
    in->at += slice.len;
    return slice;
}

size_t small_name(uint8_t choice, uint8_t *name)
{
    size_t len = 0;
    for (int i = choice >> 6; i > 0; i--) {
        name[len++] = LABEL_LIMIT;
        memset(name + len, 'l', LABEL_LIMIT);
        len += LABEL_LIMIT;
    }
    size_t label = choice >> 6 == 3 ? 61 : 1;
    name[len++] = (uint8_t)label;
    memset(name + len, 'a', label);
    name[len + label - 1] = "abcdefghijklmnopqrstuvwxyz0123456789-_ABCDEFGHIJKLMNOPQRSTUVWXYZ"[choice & 63];
    len += label;
    name[len++] = 0;
    return len;
}

void small_dhcid(uint8_t choice, uint8_t *dhcid)
{
    memset(dhcid, choice >> 2, VICHRELKA_DHCID_LEN);
    dhcid[0] = 0;
    dhcid[1] = choice & 3; /* 3 is none */
    dhcid[2] = 1;
}

void take_slot(struct input *in, struct slot *s)
{
    memset(s, 0, sizeof *s);
    s->len = (uint8_t)small_name(take(in), s->name);
    s->flags = take(in);
    if (s->flags & HAS_A)
        memset(s->a, take(in), sizeof s->a);
    if (s->flags & HAS_AAAA)
        memset(s->aaaa, take(in), sizeof s->aaaa);
    if (s->flags & HAS_DHCID)
        small_dhcid(take(in), s->dhcid);
}

struct slot numbered_slot(size_t number)
{
    struct slot s = {.flags = HAS_A | HAS_DHCID};
    s.len = (uint8_t)small_name((uint8_t)(number % 38 | number / 38 << 6), s.name);
    s.a[3] = (uint8_t)number;
    small_dhcid((uint8_t)(number << 2), s.dhcid);
    return s;
}

void put_slot(struct input *in, uint8_t *table)
{
    struct slot *s = (struct slot *)table, *last = s + VICHRELKA_TABLE_NAMES - 1;
    while (s < last && s->len != 0)
        s++;
    take_slot(in, s);
}

void fill_table(uint8_t names, uint8_t *table)
{
    for (size_t i = 0; i < (size_t)names % (VICHRELKA_TABLE_NAMES + 1); i++)
        ((struct slot *)table)[i] = numbered_slot(i);
}

void take_client(struct input *in, const uint8_t *table, struct step_arguments *a)
{
    uint8_t choice = take(in), which = take(in);
    const struct slot *s = (const struct slot *)table + which % VICHRELKA_TABLE_NAMES;
    a->dhcid = (struct bytes){a->dhcid_bytes, sizeof a->dhcid_bytes, 0};
    if (choice & 1)
        memcpy(a->dhcid_bytes, s->dhcid, sizeof s->dhcid);
    else if (choice & 2)
        a->dhcid = take_slice(in, choice & 64 ? which : VICHRELKA_DHCID_LEN);
    else
        small_dhcid(which, a->dhcid_bytes);
    a->family = choice & 128 ? take(in) : choice & 4 ? 6 : 4;
    size_t address_len = a->family == 4 ? 4 : 16;
    a->address = (struct bytes){a->address_bytes, address_len, 0};
    if (choice & 8)
        memcpy(a->address_bytes, a->family == 4 ? s->a : s->aaaa, address_len);
    else if (choice & 16)
        a->address = take_slice(in, choice & 32 ? take(in) : address_len);
    else
        memset(a->address_bytes, take(in), address_len);
}

struct bytes take_name(struct input *in, const uint8_t *table, uint8_t *room)
{
    uint8_t choice = take(in), which = take(in);
    if (choice & 1) {
        const struct slot *s = (const struct slot *)table + which % VICHRELKA_TABLE_NAMES;
        memcpy(room, s->name, s->len);
        for (size_t i = 0; i < s->len; i++)
            if (choice & 2 && room[i] >= 'a' && room[i] <= 'z')
                room[i] = (uint8_t)(room[i] - 'a' + 'A');
        return (struct bytes){room, s->len, 0};
    }
    if (choice & 2)
        return take_slice(in, choice & 4 ? 256 : which);
    return (struct bytes){room, small_name(which, room), 0};
}

int same(const uint8_t *one, const uint8_t *other, size_t len)
{
    return len == 0 || memcmp(one, other, len) == 0;
}

void differ(const char *call, const char *what, uint64_t library, uint64_t plain)
{
    fprintf(stderr, "%s: %s: the library %016" PRIx64 ", plain C %016" PRIx64 "\n", call, what, library, plain);
    abort();
}

const char *const CALL_NAMES[CALLS] = {"name",  "dhcid", "check", "load",  "add",       "remove",
                                       "clear", "write", "find",  "count", "from text", "to text",
                                       "block", "replay", "tidy", "sound", "lease",     "end",
                                       "ptr",   "add first", "add second", "remove first", "remove second", "answer"};
uint64_t answers[CALLS][NUMBERS];

void count(enum call call, uint64_t answer)
{
    uint32_t number = vichrelka_refusal(answer);
    answers[call][number < NUMBERS ? number : NUMBERS - 1]++;
}

void agree(const char *call, uint64_t library, uint64_t plain, int same_written, int all_as_lent)
{
    if (library != plain)
        differ(call, "another answer", library, plain);
    if (!same_written)
        differ(call, "other bytes written", library, plain);
    if (!all_as_lent)
        differ(call, "bytes changed that are not to be", library, plain);
}

#ifdef TARGET
int LLVMFuzzerTestOneInput(const uint8_t *input, size_t len);
int LLVMFuzzerTestOneInput(const uint8_t *input, size_t len)
{
    TARGET(input, len);
    return 0;
}
#endif
