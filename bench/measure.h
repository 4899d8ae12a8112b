/* What the benchmarks share. */
#ifndef MEASURE_H
#define MEASURE_H

#include <stdio.h>
#include <stdlib.h>
#include <time.h>

static inline void stop(const char *who, const char *what)
{
    fprintf(stderr, "bench: %s: %s\n", who, what);
    exit(1);
}

static inline double cpu_seconds(void)
{
    struct timespec t;
    clock_gettime(CLOCK_PROCESS_CPUTIME_ID, &t);
    return t.tv_sec + t.tv_nsec * 1e-9;
}

/* What a contestant does once; it stops the program unless it did it right, so every timed pass is checked. */
typedef void pass_fn(const void *given);

/* The seconds of one pass, of so many in a row, if that is less than the best so far. */
static inline void time_passes(pass_fn *pass, const void *given, int passes, double *best)
{
    double began = cpu_seconds();
    for (int k = 0; k < passes; k++)
        pass(given);
    double took = (cpu_seconds() - began) / passes;
    if (took < *best)
        *best = took;
}

/* A row of the table that bench/run prints: our time and a peer's, or what can be done in them, and how many times faster ours is. A peer that is not
   installed has no seconds. */
enum unit { MICROSECONDS, MEGABYTES_A_SECOND, MILLIONS_A_SECOND };

static inline void cell(enum unit unit, double seconds, size_t bytes)
{
    if (unit == MICROSECONDS)
        printf("%9.3f us  ", seconds * 1e6);
    else if (unit == MEGABYTES_A_SECOND)
        printf("%9.1f MB/s", bytes / seconds / 1e6);
    else
        printf("%9.3f M/s ", 1e-6 / seconds);
}

static inline void row(const char *what, enum unit unit, size_t bytes, double ours, const char *peer, double theirs)
{
    printf("%-62s ", what);
    cell(unit, ours, bytes);
    printf("   %-22s ", peer);
    if (theirs > 0) {
        cell(unit, theirs, bytes);
        printf("  %6.2f\n", theirs / ours);
    } else {
        printf("not measured\n");
    }
    fflush(stdout);
}

#endif
