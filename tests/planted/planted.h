/*
 * A shim stands between the harness and the library (the linker's --wrap) and differs from the library in one thing, which a slip of
 * its makers could have made. The comparison has to tell each of them from the library; `faithful` differs in nothing and must pass.
 * The shims of a test stand in a folder of their own, with a header of that name.
 */
#ifndef PLANTED_H
#define PLANTED_H

#include <string.h>

#include "../answers.h"
#include "vichrelka.h"

/* The same answer with its halves the other way round */
static inline uint64_t exchanged(uint64_t answer)
{
    return answer << 32 | answer >> 32;
}

static inline int is_label_byte(uint8_t c)
{
    return (c >= 'a' && c <= 'z') || (c >= 'A' && c <= 'Z') || (c >= '0' && c <= '9') || c == '-' || c == '_';
}

#endif
