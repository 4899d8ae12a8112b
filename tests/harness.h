/*
 * What every harness needs: cases in and answers out; lend.h has the memory to lend. A harness of a call is harness.c, lend.c and a file of
 * its own with `answer_line`; tests/README.md has the format of cases and answers.
 */
#ifndef HARNESS_H
#define HARNESS_H

#include <stddef.h>
#include <stdint.h>

#include "lend.h"

/* Answers one case in a line on standard output; 0 if the line is none. It may take the line apart. */
int answer_line(char *line);

/* Whether a line's next field is this word; then the rest is what follows it. */
int take_word(char **rest, const char *word);

/* A number in decimal, `most` at most; whether the next field is one. */
int take_number(char **rest, uint64_t most, uint64_t *number);

/* Bytes in hexadecimal, into the same memory; whether the next field is that. */
int take_bytes(char **rest, struct bytes *bytes);

/* Pieces with commas between them, each as take_bytes reads it, into `whole`, which has room for ROOM bytes. The zeros behind the last piece are
   not written out if there is no room for them. */
int take_pieces(char **rest, uint8_t *whole, struct bytes *bytes);

/* Whether the line has no more fields. */
int is_whole(const char *rest);

/* What one call did: its answer, what it wrote where it may, and whether it left all else as it was. The other ways do not touch what is written. */
struct outcome {
    uint64_t answer;
    const uint8_t *written;
    size_t written_len;
    int is_as_lent;
};

/* A call of a case in one way, and whether a case differs in this way, which is NULLS or INSIDE, from the others */
typedef void call_fn(const void *asked, enum way way, struct outcome *done);
typedef int differs_fn(const void *asked, enum way way);

/* Calls the case in all its ways; whether it was accepted, and what was done then. If not, or if the ways do not agree or one has written where it
   should not, the line that says so is printed. */
int ask(call_fn *call, differs_fn *differs, const void *asked, struct outcome *done);

/* The line of an accepted call: its value and what it has written, in pieces */
void print_written(const struct outcome *done);

#endif
