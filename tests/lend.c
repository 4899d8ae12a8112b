/* Memory to lend: pages of its own, with an unreadable one on either side. */
#define _DEFAULT_SOURCE

#include "lend.h"

#include <stdio.h>
#include <stdlib.h>
#include <string.h>
#include <sys/mman.h>
#include <unistd.h>

enum { NOISE = 64 };

void fail(const char *what)
{
    fprintf(stderr, "harness: %s\n", what);
    exit(2);
}

size_t length(const struct bytes *bytes)
{
    return bytes->len + bytes->zeros;
}

static size_t page_size(void)
{
    return (size_t)sysconf(_SC_PAGESIZE);
}

/* So many bytes, whole pages, with an unreadable page on either side */
static uint8_t *map(size_t size)
{
    size_t page = page_size();
    uint8_t *area = mmap(NULL, size + 2 * page, PROT_READ | PROT_WRITE, MAP_PRIVATE | MAP_ANONYMOUS | MAP_NORESERVE, -1, 0);
    if (area == MAP_FAILED || mprotect(area, page, PROT_NONE) != 0 || mprotect(area + page + size, page, PROT_NONE) != 0)
        fail("no memory with unreadable pages around it");
    return area + page;
}

static void unmap(uint8_t *bytes, size_t size)
{
    munmap(bytes - page_size(), size + 2 * page_size());
}

static void prepare(struct room *room)
{
    if (ROOM % page_size() != 0)
        fail("pages are larger than expected");
    room->pages = map(ROOM);
    room->before = malloc(ROOM);
    if (room->before == NULL)
        fail("no memory");
}

/* Zeros that nobody has touched cost nothing, and nobody looks at them again: only the bytes before them are compared. */
static uint8_t *lend_sparse(struct room *room, const struct bytes *bytes)
{
    size_t page = page_size(), len = bytes->len + bytes->zeros;
    room->sparse_size = (len + page - 1) / page * page;
    room->sparse = map(room->sparse_size);
    room->lent = room->first = room->sparse;
    room->count = bytes->len;
    return room->lent;
}

uint8_t *lend(struct room *room, enum side side, const struct bytes *bytes)
{
    size_t noise = ROOM - bytes->len < NOISE ? ROOM - bytes->len : NOISE;
    if (room->pages == NULL)
        prepare(room);
    if (room->sparse != NULL) {
        unmap(room->sparse, room->sparse_size);
        room->sparse = NULL;
    }
    if (bytes->zeros > 0) {
        lend_sparse(room, bytes);
    } else {
        room->lent = side == AT_END ? room->pages + ROOM - bytes->len : room->pages;
        room->first = side == AT_END ? room->lent - noise : room->lent;
        room->count = bytes->len + noise;
        memset(side == AT_END ? room->first : room->lent + bytes->len, 'x', noise);
    }
    if (bytes->len > 0)
        memcpy(room->lent, bytes->first, bytes->len);
    memcpy(room->before, room->first, room->count);
    return room->lent;
}

int is_as_lent(const struct room *room, size_t written)
{
    size_t start = (size_t)(room->lent - room->first), end = start + written;
    return memcmp(room->before, room->first, start) == 0
        && memcmp(room->before + end, room->first + end, room->count - end) == 0;
}

uint8_t *lend_or_null(struct room *room, enum way way, const struct bytes *bytes)
{
    uint8_t *lent = lend(room, way == STARTS ? AT_START : AT_END, bytes);
    return way == NULLS && length(bytes) == 0 ? NULL : lent;
}
