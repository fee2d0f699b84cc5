/* What the benches share: the processor's time, how many rounds, by which book, and how a bench ends that was refused. */
#ifndef CLOCK_H
#define CLOCK_H

#include <inttypes.h>
#include <stdio.h>
#include <stdlib.h>
#include <time.h>

#include "book.h"

enum { ROUNDS = 5 };
static const struct book newer = {SHEET_NEW_EDITION, SHEET_OLD_LETTERS};

static inline double now(void)
{
    struct timespec t;
    clock_gettime(CLOCK_PROCESS_CPUTIME_ID, &t);
    return (double)t.tv_sec + 1e-9 * (double)t.tv_nsec;
}

static inline void refuse(const char *what, uint64_t number)
{
    printf("%s: %" PRIu64 "\n", what, number);
    exit(1);
}

#endif
