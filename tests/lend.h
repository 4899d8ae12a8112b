/*
 * Memory to lend to the library. Whatever is lent stands right before or right behind a page that nobody can read, so that a read past that
 * end is a fault, whatever the compiler knows of the library. The other side has noise; what was lent and the noise are compared after each call.
 */
#ifndef LEND_H
#define LEND_H

#include <stddef.h>
#include <stdint.h>

/* Ends the harness, by no fault of a call. */
void fail(const char *what);

/* Bytes, and so many zero bytes behind them: these take no memory, and may be more than there is. */
struct bytes {
    const uint8_t *first;
    size_t len;
    size_t zeros;
};

size_t length(const struct bytes *bytes);

/* Where lent bytes stand: with the last one right before a page that nobody can read, or with the first one right behind one. */
enum side { AT_END, AT_START };

/* Memory to lend from, and what was lent last. All zeros is a room that was not used yet. */
struct room {
    uint8_t *pages; /* ROOM bytes with an unreadable page on either side */
    uint8_t *before; /* what stood there before the call */
    uint8_t *lent;
    uint8_t *first; /* of the noise and of what was lent */
    size_t count;
    uint8_t *sparse; /* pages of a lending that is longer than a room; NULL if there is none */
    size_t sparse_size;
};

enum { ROOM = 256 * 1024 };

/* Lends these bytes, with noise on their other side. Bytes with zeros behind them stand after an unreadable page on either side. */
uint8_t *lend(struct room *room, enum side side, const struct bytes *bytes);

/* Whether all that was lent, and the noise, is as before, but for so many bytes from the first lent one on. */
int is_as_lent(const struct room *room, size_t written);

/* How a case is called: with every slice at the end, and at the start, of memory that can be read; with null pointers for the empty ones; and with
   one slice lent from inside another, if a call allows that. */
enum way { ENDS, STARTS, NULLS, INSIDE, WAYS };

/* The first two ways and the third: what is lent, or NULL for no bytes */
uint8_t *lend_or_null(struct room *room, enum way way, const struct bytes *bytes);

#endif
