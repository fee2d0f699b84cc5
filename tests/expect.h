/* What the tests in C share: expectations are counted, and the first twenty that fail are told, each after the name of its test. */
#ifndef EXPECT_H
#define EXPECT_H

#include <inttypes.h>
#include <stdio.h>

static const char *test;
static unsigned faults;
static unsigned tried;

static inline void expect(int holds, const char *what, uint64_t of)
{
    tried++;
    if (holds)
        return;
    faults++;
    if (faults <= 20)
        printf("%s: %s (%" PRIu64 ")\n", test, what, of);
}

#endif
