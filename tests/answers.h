/*
 * Answers put together, as include/vichrelka.h takes them apart: for whoever stands in the library's place, and for those who know what
 * it has to answer.
 */
#ifndef ANSWERS_H
#define ANSWERS_H

#include <stdint.h>

static inline uint64_t accepted(uint32_t value)
{
    return (uint64_t)value << 32;
}

static inline uint64_t refused(uint32_t number, uint32_t place)
{
    return (uint64_t)place << 32 | number;
}

#endif
